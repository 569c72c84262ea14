import 'c.dart';
