main() {
  var s = 'abcdefgh';
  s + 'abcdefg';
  s + s;
  s + s + s;
  s.substring(0, 0);
  '$s';
  1.toString();
  print('all');
}
