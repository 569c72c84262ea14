import 'dart:isolate';
import 'd.dart';

class D {
  final x;
  D(this.x);
}
