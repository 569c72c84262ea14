library shapes;

class Shape {
  static var made = 0;
  final _name;
  Shape(this._name) {
    made++;
  }
  Shape.square() : this('square');
  get name => _name;
  static count() => made;
  _secret() => 'the secret of shapes';
  open() => 'open: ' + _secret();
}

class _Box {
  var shown = 'shown', _kept = 'kept';
}

area(a, b) => a * b;
var unit = 'metre';
final limit = 9;
describe() => 'all in $unit';
make() => new _Box();
_hidden() => 'hidden';
