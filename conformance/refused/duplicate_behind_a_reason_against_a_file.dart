import 'b.dart';

var a, a;
