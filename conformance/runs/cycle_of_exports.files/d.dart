export 'b.dart';
export 'd.dart';

var ofD = 'd';
