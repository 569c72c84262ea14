import 'b.dart';

var a;
var a;

main() {}
