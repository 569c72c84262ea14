class C {
  var written = 'nothing';
  static get name => 'static';
  set name(value) {
    written = value;
  }
  read() => name;
  write() {
    name = 'value';
  }
}

main() {
  var c = new C();
  print(c.read());
  print(C.name);
  try {
    c.write();
  } catch (error) {
    print(error);
  }
  print(c.written);
  c.name = 'value';
  print(c.written);
}
