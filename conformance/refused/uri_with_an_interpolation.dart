import 'a${1}x.dart';

main() {}
