class Point {
  var x, y, name;
  Point(this.x, this.y) : name = 'plain';
  Point.named(this.name, {this.x: 1, this.y});
  Point.square(n) : this(n, n);
  Point.origin() : this.square(0);
  factory Point.maybe(n) => n == 0 ? null : new Point.square(n);
  factory Point.other() { return 'no point'; }
  toString() => '$name $x $y';
}

main() {
  print(new Point(1, 2));
  print(new Point.named('n', y: 3));
  print(new Point.square(4));
  print(new Point.origin());
  print(new Point.maybe(0));
  print(new Point.maybe(5));
  print(new Point.other());
}
