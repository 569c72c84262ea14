var shadowed = 'library';

outside(read) {
  try {
    return read();
  } catch (error) {
    return error;
  }
}

class S {
  var declared = 'superclass', shadowed = 'superclass', overridden = 'superclass';
  static var fixed = 'static';
}

class M {
  var mixed = 'mixin', shadowed = 'mixin', overridden = 'mixin';
}

class C extends S with M {
  var overridden = 'class';
  read() => [declared, mixed, overridden, shadowed];
  readOfThis() => [this.declared, this.mixed, this.overridden, this.shadowed];
  readOfSuper() => [super.declared, super.mixed, super.overridden, super.shadowed];
  readFixed() => fixed;
  static readStatic() => declared;
}

main() {
  var c = new C();
  print(c.read());
  print(c.readOfThis());
  print(c.readOfSuper());
  print(outside(c.readFixed));
  print(outside(C.readStatic));
}
