class Counter {
  var n = 1, made = [], step, kept = () => 'a function in a field';
  Counter() {
    step = () => n++;
    for (var i = 0; i < 2; i++) made.add(() => this.n += i);
  }
  Counter.from(x) : step = (() => x++), n = x {
    x = 100;
    made.add(() => x);
  }
  all(x) => [() => n = x, (x) => this.n + x, () {
    inner() => n;
    return inner();
  }];
  get lazy => () => n;
  static starting(x) => () => x++;
}

class Further extends Counter {
  var n = 50;
  above(x) => [() => super.all(x)[2](), () => super.lazy()];
  taken() {
    var all = super.all;
    return all(9)[1](1);
  }
}

called(functions) => functions.map((f) => f());

main() {
  var made = [];
  for (var i = 0, f = () => i; i < 3; i++) made.add(f);
  print(called(made));

  made = [];
  for (var i = 0; (made..add(() => i)).length < 4; i++) i += 10;
  print(called(made));

  made = [];
  for (var i = 0; i < 2; i++) {
    for (var j = 0; j < 2; j++) {
      var k = i * j;
      made.add(() => '$i$j${k++}');
      k += 5;
    }
  }
  print(called(made));
  print(called(made));

  made = [];
  for (var x in [1, 2]) {
    var y;
    made.add(() => y = y == null ? x : y + x);
  }
  print([made[0](), made[0](), made[1](), made[1](), made[0]()]);

  made = [];
  for (var i = 0; i < 3; i++) {
    try {
      throw i;
    } catch (e) {
      made.add(() => e++);
      e += 10;
    }
  }
  print(called(made));
  print(called(made));

  parameters(a, [b = 1, c]) {
    c = () {
      a++;
      b += a;
      return '$a $b';
    };
    return c;
  }
  var p = parameters(1), q = parameters(5, 5);
  print([p(), p(), q(), p()]);

  outer() {
    var a = 1;
    middle() {
      var b = a + 1;
      inner() {
        a += b;
        return '$a $b';
      }
      a++;
      return inner;
    }
    return [middle, () => a];
  }
  var both = outer(), inner = both[0]();
  print([inner(), inner(), both[1](), both[0]()(), both[1]()]);

  var counter = new Counter();
  print([counter.step(), counter.step(), counter.n, counter.made[0](), counter.made[1](), counter.n, counter.kept()]);
  var from = new Counter.from(7);
  print([from.n, from.step(), from.step(), from.made[0](), from.step()]);
  var all = counter.all(40);
  print([all[0](), all[1](2), all[2](), counter.n]);
  var next = Counter.starting(3);
  print([next(), next(), counter.lazy()]);
  var further = new Further();
  print([further.above(1)[0](), further.above(1)[1](), further.taken(), further.step(), further.n]);
  var taken = counter.all;
  counter = null;
  print(taken(1)[2]());
}
