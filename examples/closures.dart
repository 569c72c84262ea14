// Functions that remember: each has the variables of the place where it was made.
counter([step = 1]) {
  var count = 0;
  return () => count += step;
}

compose(f, g) => (x) => f(g(x));

// A function that finds each value once.
remembered(f) {
  var known = {};
  return (n) {
    if (!known.containsKey(n)) {
      print('finding $n');
      known[n] = f(n);
    }
    return known[n];
  };
}

class Button {
  final String label;
  final List handlers = [];

  Button(this.label);

  void press() {
    for (var handler in handlers) handler(this);
  }
}

main() {
  var byOne = counter(), byTen = counter(10);
  byOne();
  byTen();
  print('${byOne()} ${byTen()} ${byOne()}');

  var addThenDouble = compose((x) => x * 2, (x) => x + 1);
  print(addThenDouble(5));
  print([1, 2, 3].map(addThenDouble));

  var square = remembered((n) => n * n);
  print(square(12));
  print(square(12));

  // Each turn of a loop has variables of its own.
  var turns = [];
  for (var i = 0; i < 3; i++) turns.add(() => i);
  print(turns.map((turn) => turn()));

  var presses = 0;
  var button = new Button('go');
  button.handlers.add((from) => presses++);
  button.handlers.add((from) => print('${from.label} was pressed'));
  button..press()..press();
  print(presses);
}
