compose(functions) => (x) => functions.fold(x, (value, f) => f(value));

add(a) => (b) => (c) => a + b + c;

class Counter {
  var n = 0;
  next() => ++n;
  get adder => (by) => n += by;
}

main() {
  times(n, f) => (x) {
    for (var k = 0; k < n; k++) x = f(x);
    return x;
  };
  print(times(3, times(2, (x) => x + 1))(0));
  print(add(1)(2)(3));
  print(compose([(x) => x * 2, (x) => x - 1, (x) => '<$x>'])(5));
  var steps = {'double': (x) => x * 2, 'less': (x) => x - 1};
  print(['double', 'less', 'double'].fold(5, (n, name) => steps[name](n)));

  var known = {}, fib;
  fib = (n) {
    if (n < 2) return n;
    if (!known.containsKey(n)) known[n] = fib(n - 1) + fib(n - 2);
    return known[n];
  };
  print(fib(90));

  even(n) {
    odd(n) => n == 0 ? false : even(n - 1);
    return n == 0 ? true : odd(n - 1);
  }
  print([even(10), even(7)]);

  var grid = [];
  for (var x = 0; x < 2; x++) {
    for (var y = x; y < 2; y++) grid.add(() => '$x$y');
  }
  print(grid.map((f) => f()));

  var changed = [];
  for (var i = 0; i < 4; i++) {
    changed.add(() => i);
    if (i == 1) i++;
  }
  print(changed.map((f) => f()));

  var later;
  for (var s in ['a', 'b', 'c']) {
    if (s == 'b') later = () => s += '!';
  }
  print(later() + later());

  var counter = new Counter(), next = counter.next, adder = counter.adder;
  next();
  adder(10);
  print([next(), counter.adder(5), counter.n]);
  print((() { return (() => 'called at once')(); })());
  var self = (f) => f(f, 5);
  print(self((f, n) => n == 0 ? 1 : n * f(f, n - 1)));
}
