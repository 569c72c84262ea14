main() {
  var s = 'abcdefgh';
  s + 'ijkl';
  s + 'abcdefgh';
  s + 'abcdefg';
  s.length;
  'abcdefghijklmnop'.length;
  'abcdefghijklmno'.length;
  print('all');
}
