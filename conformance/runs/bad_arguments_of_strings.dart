attempt(what, f) {
  try {
    print('$what: ${f()}');
  } catch (error) {
    print('$what: $error');
  }
}

main() {
  var s = 'abc';
  attempt('first', () => s[0]);
  attempt('behind the last', () => s[3]);
  attempt('before the first', () => s[-1]);
  attempt('at a string', () => s['0']);
  attempt('at null', () => s[null]);
  attempt('unit', () => s.codeUnitAt(3));
  attempt('whole', () => s.substring(0, 3));
  attempt('nothing', () => '[' + s.substring(3) + ']');
  attempt('too far', () => s.substring(1, 4));
  attempt('backwards', () => s.substring(2, 1));
  attempt('from before', () => s.substring(-1));
  attempt('without a start', () => s.substring());
  attempt('no text', () => s.contains(5));
  attempt('empty', () => s.indexOf(''));
  attempt('empty at the end', () => s.indexOf('', 3));
  attempt('sought too far', () => s.indexOf('c', 4));
  attempt('number', () => s + 1);
  attempt('compared', () => s.compareTo(1));
  attempt('equal', () => s == 1);
  attempt('parsed', () => int.parse('-0'));
  attempt('not parsed', () => int.parse('1a'));
  attempt('no string', () => int.parse(12));
  attempt('character', () => new String.fromCharCode(0x10FFFF).length);
  attempt('no character', () => new String.fromCharCode(0x110000));
  attempt('assigned', () => s[0] = 'x');
  attempt('length', () => s.length = 2);
  attempt('times', () => s * 2);
}
