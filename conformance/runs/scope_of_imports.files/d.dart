export 'e.dart' show exported;

var hidden = 'd';
