class Adder {
  final n;
  Adder(this.n);
  add(x) => n + x;
  call(x, [y = 100]) => n + x + y;
  static twice(x) => x * 2;
}

half(x) => x ~/ 2;

main() {
  var adder = new Adder(10), add = adder.add;
  print([add(1), [1, 2].map(Adder.twice), [4, 6].map(half), [1].map(adder)]);
  print([adder(1), adder(1, 2)]);
  print([half == half, add == adder.add, add == new Adder(10).add]);
  print([add is Function, adder is Function, half.runtimeType]);
  print('$half $add');
  fact(n) => n < 2 ? 1 : n * fact(n - 1);
  print(fact(20));
  print(((x) => (y) => x - y)(5)(3));
}
