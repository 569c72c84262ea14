class A {
  var n = 1;
  m(x) => 'A$x';
  get g => 'Ag';
  set s(v) { print('As $v'); }
  operator [](i) => 'A[$i]';
  operator +(o) => 'A+$o';
  operator ==(o) => o == 5;
}

class B extends A {
  var n = 2;
  m(x) => 'B' + super.m(x);
  get g => 'B' + super.g;
  set s(v) { super.s = v + 1; }
  operator [](i) => 'B' + super[i];
  operator +(o) => 'B' + (super + o);
  operator ==(o) => super == o;
  both() => '${super.n} $n';
  taken() {
    var f = super.m;
    return f(9);
  }
  missing() {
    try {
      return super.zork(1);
    } catch (error) {
      return error;
    }
  }
}

main() {
  var b = new B();
  print(b.m(1));
  print(b.g);
  b.s = 1;
  print(b[2]);
  print(b + 3);
  print(b == 5);
  print(b == 6);
  print(b.both());
  print(b.taken());
  print(b.missing());
}
