class Fraction implements Comparable {
  final above, below;
  Fraction._(this.above, this.below);
  factory Fraction(a, [b = 1]) {
    if (b == 0) throw new ArgumentError('nothing over 0');
    if (b < 0) {
      a = -a;
      b = -b;
    }
    var g = _gcd(a.abs(), b);
    return new Fraction._(a ~/ g, b ~/ g);
  }
  static _gcd(a, b) => b == 0 ? a : _gcd(b, a % b);
  operator +(o) => new Fraction(above * o.below + o.above * below, below * o.below);
  operator -() => new Fraction(-above, below);
  operator -(o) => this + -o;
  operator *(o) => new Fraction(above * o.above, below * o.below);
  operator /(o) => new Fraction(above * o.below, below * o.above);
  operator ==(o) => o is Fraction && above == o.above && below == o.below;
  operator <(o) => compareTo(o) < 0;
  operator [](i) => i == 0 ? above : below;
  compareTo(o) => (above * o.below).compareTo(o.above * below);
  toString() => below == 1 ? '$above' : '$above/$below';
}

main() {
  var half = new Fraction(1, 2), third = new Fraction(-2, -6);
  print([half + third, half - third, half * third, half / third]);
  print([-half, - -half, half == new Fraction(2, 4), half != third, half == 1, 1 == half]);
  print([third < half, third.compareTo(half), half[0], half[1]]);
  var sum = new Fraction(0);
  for (var n = 1; n <= 4; n++) sum += new Fraction(1, n);
  print(sum);
  print([new Fraction(6, -3), new Fraction(0, -5)]);
  print([half, third].indexOf(new Fraction(1, 3)));
  print({half: 'a half'}[new Fraction(3, 6)]);
  for (var f in [() => half / new Fraction(0), () => half > third, () => half + 1, () => half[0] = 2, () => ~half]) {
    try {
      print(f());
    } catch (error) {
      print(error);
    }
  }
}
