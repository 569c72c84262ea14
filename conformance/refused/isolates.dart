import 'dart:isolate';

main() { print('alone'); }
