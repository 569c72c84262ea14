import 'five_files.dart';
export 'd.dart' show D;

var b = 1;
