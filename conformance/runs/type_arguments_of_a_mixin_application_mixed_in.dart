class Held<T> {
  T held;
  var all = <T>[];
  var empty = (() => <T>[]);
  get type => T;
  fits(x) => x is T;
}

class Lists<T> = Object with Held<List<T>>;
class Maps<K, V> = Object with Lists<Map<V, K>>;
class Counts = Object with Maps<int, String>;

class One extends Object with Lists<int> {}

class Two<T> extends Object with Maps<T, bool> {}

class Three extends Object with Counts {}

class Bare extends Object with Lists {}

main() {
  var one = new One(), two = new Two<num>(), three = new Three();
  print([one.type, two.type, three.type]);
  print([one is Held<List<int>>, one is Held<List<String>>, two is Held<List<Map<bool, num>>>]);
  print([three is Held<List<Map<String, int>>>, three is Held<List<Map<int, String>>>]);
  print([one.all is List<List<int>>, one.all is List<List<String>>]);
  print([three.empty() is List<List<Map<String, int>>>, three.empty() is List<List<Map<int, int>>>]);
  print([one.fits(<int>[1]), one.fits(<String>['a']), one.fits(1)]);
  print([two.fits(<Map<bool, int>>[]), two.fits(<Map<num, bool>>[]), new Bare().fits([1])]);
  one.held = 'any';
  one.all.add(1);
  print([one.held, one.all, new One().held, new One().all]);
}
