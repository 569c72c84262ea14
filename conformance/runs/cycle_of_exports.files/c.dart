import 'cycle_of_exports.dart';
export 'd.dart';

var ofC = 'c';

class Both {
  toString() => 'both of c';
}
