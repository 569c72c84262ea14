var log = [];

told(name, [value]) {
  log.add(name);
  return value;
}

shown() {
  print(log.join(', '));
  log.clear();
}

class Base {
  var a = told('a', 1), b;
  Base(x, {y: 'none'}) : b = told('b', x) {
    told('body of Base with $y');
    started();
  }
  Base.plain() {
    told('plain');
  }
  started() => told('started in Base');
}

class Derived extends Base {
  var c = told('c', 3);
  final d;
  Derived(x, d) : d = d, super(told('argument', x), y: d) {
    told('body of Derived');
    c = told('c again', 4);
  }
  Derived.short() : this(told('redirected', 1), 2);
  started() => told('started in Derived: $a $b $c $d');
}

class Quiet extends Derived {
  var e = told('e');
  Quiet() : super.short();
}

class Implicit extends Base {
  var f = told('f');
  Implicit() : super.plain();
}

class Default {
  var g = told('g');
}

class Under extends Default {}

class Shadow {
  var x = 'field';
  var y;
  Shadow(x) : y = x {
    x = 'parameter';
    this.x = x + '!';
  }
  Shadow.formal(this.x) : y = 'y' {
    x = x + '?';
  }
  Shadow.lost(this.x) : y = x;
}

main() {
  var d = new Derived(5, 6);
  shown();
  print([d.a, d.b, d.c, d.d]);
  new Derived.short();
  shown();
  new Quiet();
  shown();
  new Implicit();
  shown();
  new Under();
  shown();
  var s = new Shadow('given'), t = new Shadow.formal('formal');
  print([s.x, s.y, t.x, t.y]);
  for (var f in [() => d.d = 1, () => new Shadow.lost(1)]) {
    try {
      f();
    } catch (error) {
      print(error);
    }
  }
}
