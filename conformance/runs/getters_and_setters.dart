var _width = 1;
get width => _width;
set width(w) { _width = w * 2; }

class Box {
  var _side = 3;
  get area => _side * _side;
  set area(a) { _side = a ~/ 3; }
  static var count = 0;
  static get twice => count * 2;
  static set twice(n) { count = n + 1; }
}

main() {
  print(width = 4);
  print(width);
  width += 1;
  print(width);
  var box = new Box();
  print(box.area);
  box.area = 12;
  print(box.area++);
  print(box.area);
  Box.twice = 5;
  print(Box.twice);
}
