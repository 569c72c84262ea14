import 'dart:io';

main() {}
