outside(read) {
  try {
    return read();
  } catch (error) {
    return error;
  }
}

class Shadowed {}

class HandedOn {}

class C<Declared, Shadowed> {
  declared(x) => x is Declared;
  shadowed(x) => x is Shadowed;
  handedOn(x) => x is HandedOn;
  static fixed() => Declared;
}

class D<Member> {
  get Member => 'member';
  read() => Member;
}

main() {
  var c = new C<int, String>();
  print([c.declared(1), c.declared('a')]);
  print([c.shadowed('a'), c.shadowed(new Shadowed())]);
  print([c.handedOn(new HandedOn()), c.handedOn(1)]);
  print(outside(() => new Declared()));
  print(outside(C.fixed));
  print(new Shadowed() is Shadowed);
  print(new D<int>().read());
}
