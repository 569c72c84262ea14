export 'd.dart' show deep;

var shared = 'shared of c';
