attempt(f) {
  try {
    print(f());
  } catch (error) {
    print(error);
  }
}

strings() {
  attempt(() => ''[0]);
  attempt(() => 'a'[0]);
  attempt(() => 'a'[1]);
  attempt(() => ''.codeUnitAt(0));
  attempt(() => 'a'.codeUnitAt(-1));
  attempt(() => '[' + ''.substring(0) + ''.substring(0, 0) + ']');
  attempt(() => ''.substring(1));
  attempt(() => 'abc'.substring(3) + 'abc'.substring(2, null));
  attempt(() => 'abc'.substring(4));
  attempt(() => 'abc'.substring(3, 2));
  attempt(() => [''.indexOf(''), ''.indexOf('a'), 'abc'.indexOf('c', 2), 'abc'.indexOf('c', 3), 'abc'.indexOf('', null)]);
  attempt(() => ''.indexOf('', 1));
  attempt(() => 'abc'.indexOf('c', -1));
  attempt(() => [''.compareTo(''), ''.compareTo('a'), 'a'.compareTo('')]);
  attempt(() => [new String.fromCharCode(0).length, new String.fromCharCode(0xFFFF).length, new String.fromCharCode(0x10000).length]);
  attempt(() => new String.fromCharCode(0x10FFFF).codeUnitAt(1));
  attempt(() => new String.fromCharCode(0x110000));
  attempt(() => new String.fromCharCode(-1));
  attempt(() => int.parse(''));
  attempt(() => int.parse('-'));
  attempt(() => int.parse('+1'));
  attempt(() => int.parse('--1'));
  attempt(() => int.parse('0/'));
  attempt(() => int.parse('9:'));
}

lists() {
  var list = new List();
  attempt(() => list.length);
  attempt(() => list[0]);
  attempt(() => list[0] = 1);
  attempt(() => list.removeLast());
  attempt(() => list.removeAt(0));
  attempt(() => list.insert(1, 'a'));
  attempt(() => list.insert(0, 'a'));
  attempt(() => list.insert(1, 'b'));
  attempt(() => list.removeAt(2));
  attempt(() => list.removeAt(1));
  attempt(() => list.length = 0);
  attempt(() => list.length = -1);
  attempt(() => list.length = 2);
  attempt(() => list);
  attempt(() => list.length = null);
}

fixed() {
  attempt(() => new List(0));
  attempt(() => new List(2));
  attempt(() => new List(-1));
  attempt(() => new List('1'));
  attempt(() => new List(null).length);
  attempt(() => new List(0).add(1));
  attempt(() => new List(0).removeLast());
  attempt(() => new List(0).length = 0);
  attempt(() => new List(1).length = -1);
  attempt(() => new List(1).insert('0', 1));
}

main() {
  strings();
  lists();
  fixed();
}
