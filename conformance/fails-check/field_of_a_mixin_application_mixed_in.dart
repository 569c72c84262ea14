class Held<T> {
  T held;
}

class Lists<T> = Object with Held<List<T>>;
class Words = Object with Lists<String>;

class A extends Object with Words {}

class B extends Object with Lists<int> {}

main() {
  dynamic ints = <int>[1], words = <String>['a'];
  var a = new A(), b = new B();
  a.held = words;
  b.held = ints;
  print([a.held, b.held]);
  a.held = ints;
  print('stored');
}
