reversed(String s) {
  var r = '';
  for (var i = s.length - 1; i >= 0; i--) r += s[i];
  return r;
}

split(String s, String by) {
  var parts = [], from = 0, at;
  while ((at = s.indexOf(by, from)) >= 0) {
    parts.add(s.substring(from, at));
    from = at + by.length;
  }
  parts.add(s.substring(from));
  return parts;
}

upper(String s) {
  var buffer = new StringBuffer();
  for (var i = 0; i < s.length; i++) {
    var c = s.codeUnitAt(i);
    buffer.write(new String.fromCharCode(97 <= c && c <= 122 ? c - 32 : c));
  }
  return buffer.toString();
}

padded(value, width) {
  var text = '$value';
  while (text.length < width) text = ' ' + text;
  return text;
}

runs(String s) {
  var r = new StringBuffer(), i = 0;
  while (i < s.length) {
    var start = i;
    while (i < s.length && s[i] == s[start]) i++;
    r.write(i - start);
    r.write(s[start]);
  }
  return '$r';
}

main() {
  print(reversed('stressed'));
  var line = 'the quick,  brown fox';
  print(split(line, ' '));
  print(split(line, ', ').length);
  print(split('', ',').length);
  print(split(line, ' ').map(reversed).join('|'));
  print(upper('Mixed Case, 9 Lives!'));
  for (var n in [5, 42, -300]) print('[${padded(n, 6)}]');
  print(runs('aaabccd'));
  print("it's" ' a "test"');
  print('tab\there\\ \x41\u{42}\u0043');
  print(r'raw $x\n');
  print('${'inner ${'more'}'}');
  print(['pear', 'Apple', 'fig'].fold('', (a, b) => a.compareTo(b) > 0 ? a : b));
  print(['', 'a', 'ab'].map((s) => 'ab'.startsWith(s) && 'ab'.contains(s)));
}
