class Key {
  final n;
  Key(this.n);
  operator ==(other) => other is Key && other.n == n;
}

main() {
  var map = {'b': 1, 'a': 2, 'b': 3};
  print(map);
  map['c'] = null;
  print([map.length, map['c'], map['d'], map.containsKey('c'), map.containsKey('d')]);
  print([map.remove('b'), map.remove('b'), map.isEmpty]);
  print('${map.keys} ${map.values}');
  map.forEach((key, value) => print('$key = $value'));
  var keys = new Map()..[new Key(1)] = 'one'..[new Key(1)] = 'uno'..[null] = 'none';
  print([keys.length, keys[new Key(1)], keys[null], keys[new Key(2)]]);
}
