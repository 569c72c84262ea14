class Shape {
  static final _known = {};
  final name;
  factory Shape(name) {
    if (!_known.containsKey(name)) {
      print('making $name');
      _known[name] = new Shape._(name);
    }
    return _known[name];
  }
  Shape._(this.name);
  factory Shape.of(sides) {
    switch (sides) {
      case 3:
        return new Shape('triangle');
      case 4:
        return new Square();
    }
    throw new ArgumentError('$sides sides');
  }
  toString() => '$runtimeType $name';
}

class Square extends Shape {
  Square() : super._('square');
}

class Pair<A, B> {
  final A first;
  final B second;
  Pair(this.first, this.second);
  Pair.twice(x) : this(x, x);
  factory Pair.turned(Pair pair) => new Pair<A, B>(pair.second, pair.first);
  factory Pair.list(List items) {
    if (items.length == 1) return new Pair<A, B>.twice(items[0]);
    return new Pair<A, B>(items[0], items[1]);
  }
  toString() => '$runtimeType($first, $second)';
}

abstract class Animal {
  factory Animal(kind) => kind == 'dog' ? new Dog() : new Cat.named('tom');
  speak();
}

class Dog implements Animal {
  speak() => 'woof';
}

class Cat implements Animal {
  final name;
  Cat.named(this.name);
  speak() => '$name says miaow';
}

main() {
  print(identical(new Shape('circle'), new Shape('circle')));
  print([new Shape.of(3), new Shape.of(4)]);
  try {
    new Shape.of(7);
  } catch (error) {
    print(error);
  }
  print(new Pair(1, 2));
  print(new Pair<int, String>(1, 'a'));
  print(new Pair<String, int>.turned(new Pair<int, String>(1, 'a')));
  print(new Pair<int, int>.list([5]));
  print(new Pair.list([5, 6]));
  print([new Animal('dog').speak(), new Animal('cat').speak()]);
  for (var f in [() => new Cat(), () => new Shape.none(), () => new Dog(1), () => new Nothing(2)]) {
    try {
      f();
    } catch (error) {
      print(error);
    }
  }
}
