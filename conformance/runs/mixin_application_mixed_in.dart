class N {
  var a = 7;
  var made = ((x) => 'made $x');
  set b(x) {
    a = x + 1;
  }
  m() => 'N $a';
}

class O {
  var a = 1;
  var c = 2;
  m() => 'O';
}

class M = Object with N;
class L = Object with M;

class A extends Object with M {}

class B extends Object with L {
  m() => 'B over ' + super.m();
}

class S {
  var s;
  S(this.s);
  S.named(x) : s = 'named $x';
}

class C extends S with L, O {
  C() : super.named(5);
  all() => [a, c, m(), made(1), s];
}

class D = S with O, L;

main() {
  var x = new A();
  print([x.a, x.m(), x.made(0)]);
  x.a = 3;
  print([x.a, x.m()]);
  x.b = 4;
  print([x.a, new A().a]);
  var y = new B()..b = 8;
  print([y.a, y.m(), y is L, y is M, y is N, y is A]);
  print([new M().m(), new L().a, new L().made(2)]);
  print(new C().all());
  var z = new D.named('z');
  print([z.a, z.c, z.m(), z.s]);
  z.a = 6;
  z.c = 3;
  print([z.a, z.c, z.m(), new D(4).s]);
}
