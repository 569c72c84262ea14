told(x) {
  print(x);
  return x;
}

class Base {
  var a = told('field of the base');
  Base(x) { told('body of the base, $x'); }
}

class Derived extends Base {
  var b = told('field'), c;
  Derived(x) : c = told('initialiser'), super(told('argument')) {
    told('body');
  }
}

main() {
  new Derived(told('given'));
}
