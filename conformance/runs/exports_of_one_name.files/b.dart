export 'c.dart';
export 'd.dart';
export 'e.dart';

var own = 'own of b';
