export 'c.dart';
export 'b.dart';

var ofB = 'b';

class Both {
  toString() => 'both of b';
}
