class A {}

class B extends A {}

main() {
  var b = new B(), f = () => 1;
  print([b is A, b is Object, new A() is B, b is! A]);
  print([null is Object, null is Null, null is dynamic, null is A, null is! A]);
  print([<int>[] is List<num>, <num>[] is List<int>, [] is List<int>, <int>[] is Iterable]);
  print([f is Function, main is Function, 1 is num, 1 is double, 'a' is Comparable<String>]);
  print(b as A == b);
  print(null as A);
  try {
    print(1 as String);
  } catch (error) {
    print(error);
  }
}
