class A {
  var x;
  A(a) : x = a ? {} : (a) { print(x); }
}

class B {
  var x;
  B(a) : x = '${{}}' + (a) { print(x); }
}

main() {
  new A(false);
  new A(true);
  new B('b');
}
