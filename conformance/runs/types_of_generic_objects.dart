class Box<T> {
  T held;
  Box([this.held]);
  fits(x) => x is T;
  made() => new Box<T>();
  list() => <T>[];
  map() => <String, T>{};
  both(other) => new Both<T, Box<T>>();
}

class Both<A, B> extends Box<A> {
  second(x) => x is B;
}

class Words extends Box<String> {}

class Bound<T extends num> {
  same() => T;
}

class Tools<T> {
  static count(list) => list.length;
  get type => T;
}

class Kit extends Object with Tools<int> {}

main() {
  var ints = new Box<int>(), any = new Box(), words = new Words();
  print([ints is Box<int>, ints is Box<num>, ints is Box<Object>, ints is Box<String>, ints is Box]);
  print([any is Box<int>, any is Box<String>, words is Box<String>, words is Box<int>]);
  print([ints.fits(1), ints.fits('a'), ints.fits(null), any.fits('a'), any.fits(null), words.fits('a')]);
  print([ints.made() is Box<int>, ints.made() is Box<String>]);
  print([ints.list() is List<int>, ints.list() is List<String>, ints.list() is Iterable<num>]);
  print([ints.map() is Map<String, int>, ints.map() is Map<int, int>, ints.map() is Map<Object, num>]);
  var both = ints.both(null);
  print(both.runtimeType);
  print([both is Box<int>, both.second(ints), both.second(new Box<String>()), both.second(words)]);
  print([new Bound<int>().same(), new Bound().same(), new Bound<String>().same()]);
  print([new Kit().type, Tools.count([1, 2]), new Kit() is Tools<num>, new Kit() is Tools<String>]);
  print([[] is List<int>, <int>[1] is List<String>, <int>['a'][0], new List<int>(1)[0]]);
  print([{} is Map<int, int>, <String, int>{} is Map<String, num>, <String, int>{} is Map<int, int>]);
  print([ints is! Box<String>, null is Box, new Box<Unknown>() is Box<int>]);
  print([[1, 2].where((n) => n > 1) is List<int>, <int>[1, 2].toList() is List<int>, <int>[1].toList() is List<String>]);
  words.held = 5;
  print(words.held);
  try {
    ints as Box<String>;
  } catch (error) {
    print(error);
  }
  print(any as Box<String> == any);
}
