told(x) {
  print('told $x');
  return x;
}

show(a, {b: 'b', c: 'c'}) => '$a$b$c';

class Box {
  final width, height, label;
  Box([this.width = 1, this.height = 2]) : label = 'box';
  Box.named({this.width: 3, this.height, this.label: 'named'});
  Box.cube(n, {label: 'cube'}) : this.named(width: n, height: n, label: '$label of $n');
  scale(by, [also]) => new Box(width * by, height * (also == null ? by : also));
  toString() => '$label $width x $height';
}

class Wide extends Box {
  Wide([height = 10]) : super(100, height);
  scale(by, [also = 1, more = 0]) => new Wide(height * also + more);
}

main() {
  print(show(told(1), c: told(2), b: told(3)));
  print(new Box());
  print(new Box(5));
  print(new Box.named(height: 4));
  print(new Box.named(label: null, width: null));
  print(new Box.cube(6));
  print(new Box.cube(6, label: 'dice'));
  print(new Box(2, 3).scale(2));
  print(new Box(2, 3).scale(2, 5));
  print(new Wide().scale(2));
  print(new Wide(3).scale(0, 2, -1));
  var f = ([x = 10, y = -1]) => x + y;
  print([f(), f(1), f(1, 2)]);
  var g = ({name: 'nobody', greeting: 'hello'}) => '$greeting $name';
  print(g(greeting: 'bye'));
  twice(f) => [f(1), f(2)];
  print(twice((x, [y = 7]) => x * y));
  shadow(x, {y: 'text', z: true}) {
    x = x == null ? 'none' : x;
    return [x, y, z];
  }
  print(shadow(null, z: null));
}
