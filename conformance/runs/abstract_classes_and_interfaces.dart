abstract class Shape {
  area();
  twice() => area() * 2;
  factory Shape(side) => new Square(side);
  Shape.base();
}

class Square extends Shape {
  final side;
  Square(this.side) : super.base();
  area() => side * side;
}

class Likeness implements Shape {
  noSuchMethod(i) => 'like ${i.memberName}';
}

class Bare extends Shape {
  Bare() : super.base();
}

main() {
  var shape = new Shape(3);
  print(shape.twice());
  print([shape is Square, new Likeness() is Shape]);
  print(new Likeness().twice());
  for (var f in [() => new Shape.base(), () => new Bare().area()]) {
    try {
      f();
    } catch (error) {
      print(error);
    }
  }
}
