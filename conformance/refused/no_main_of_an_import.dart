import 'b.dart';
export 'b.dart';
