var shadowed = 'library', handedOn = 'library';

var shadowedByStatic = 'library';
called() => 'library';

outside(read) {
  try {
    return read();
  } catch (error) {
    return error;
  }
}

class C {
  var declared = 'field', shadowed = 'field';
  static var fixed = 'static', shadowedByStatic = 'static';
  called() => 'method';
  get got => 'getter';
  operator +(shadowed) => [declared, shadowed, handedOn];
  read() => [declared, shadowed, called(), got, fixed, shadowedByStatic, handedOn];
  local(shadowed) => [shadowed, this.shadowed];
  static readStatic() => [fixed, shadowedByStatic, handedOn];
  static readDeclared() => declared;
  static readShadowed() => shadowed;
  static callCalled() => called();
}

main() {
  var c = new C();
  print(c.read());
  print(c + 'parameter');
  print(c.local('parameter'));
  print(C.readStatic());
  print(outside(() => C.readDeclared()));
  print(outside(() => C.readShadowed()));
  print(outside(() => C.callCalled()));
  print(outside(() => fixed));
  print(outside(() => got));
  print([shadowed, shadowedByStatic, called()]);
}
