var x = 'library';

f() => 'function of the library';

class A {
  var x = 'field';
  f() => 'method';
  read() => x;
  local() {
    var x = 'local';
    return '$x, ${this.x}';
  }
  static fixed() => y;
  static var y = 'static';
}

var y = 'not static';

class B extends A {
  g() => f();
  h() => this.f();
  inherited() {
    try {
      return fixed();
    } catch (error) {
      return error;
    }
  }
}

main() {
  var x = x + ', then local';
  print(x);
  print(new A().read());
  print(new A().local());
  print(A.fixed());
  print(new B().g());
  print(new B().h());
  print(new B().inherited());
  print(new B().read());
}
