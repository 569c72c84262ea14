import 'isolates_imported_by_another_file.dart';
export 'd.dart' show D;

var b = 1;
