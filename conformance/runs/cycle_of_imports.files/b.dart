export 'c.dart';
