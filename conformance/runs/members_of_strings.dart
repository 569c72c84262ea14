main() {
  var s = 'abcabc';
  print([s.length, s[1], s.codeUnitAt(2), s.isEmpty, ''.isEmpty]);
  print([s.substring(4), s.substring(1, 3), s.indexOf('c'), s.indexOf('c', 3), s.indexOf('z')]);
  print([s.contains('ca'), s.startsWith('ab'), s.startsWith('b')]);
  print(['a'.compareTo('b'), 'b'.compareTo('a'), 'a'.compareTo('a'), 'a'.compareTo('ab')]);
  print(new String.fromCharCode(65) + 'B');
  print('é€😀'.length);
  print(new String.fromCharCode(0x1F600));
  print('[${new String.fromCharCode(0xD83D)}]');
  print([int.parse('12'), int.parse('-007')]);
  for (var f in [() => 'abc'[3], () => 'abc'.substring(2, 1), () => int.parse('1 '), () => 'a' + 1]) {
    try {
      f();
    } catch (error) {
      print(error);
    }
  }
}
