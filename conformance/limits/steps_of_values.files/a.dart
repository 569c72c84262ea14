main() {
  1 is int;
  1 as int;
  int;
  print;
  -5;
  'x${1}y';
  var l = [1, 2];
  l[0];
  l.length;
  print('all');
}
