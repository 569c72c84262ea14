told(x) {
  print(x);
  return x;
}

class S {
  var s = told('S');
  S(x) { told('S $x'); }
  who() => 'S';
  only() => 'only S';
}

class M {
  var m = told('M');
  who() => 'M';
  also() => 'also ' + who();
}

class N {
  var n = told('N');
  who() => 'N';
}

class C extends S with M, N {
  var c = told('C');
  C() : super('from C');
  up() => super.who();
}

class D = S with N, M;

main() {
  var c = new C();
  print(c.who());
  print(c.up());
  print(c.only());
  print(c.also());
  print(c is M && c is N && c is S);
  var d = new D('from D');
  print(d.who());
}
