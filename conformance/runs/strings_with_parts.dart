class Cat {
  var name = 'tom';
  toString() => 'cat $name';
  self() => '$this!';
}

main() {
  var a = 1, cat = new Cat();
  print('$a${a + 1}b');
  print('$cat.name ${cat.name}');
  print(cat.self());
  print('${'in ${'side'}'}');
  print('a' "b" r'\n' '$a');
  print('\x41\u0042\u{43}\$\'\"\\\q');
  print('tab\tand\nline');
  print('${{1: 2}} ${[null, true]}');
}
