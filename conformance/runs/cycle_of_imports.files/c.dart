import 'b.dart';
