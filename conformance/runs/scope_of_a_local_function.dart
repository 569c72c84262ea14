shadowed() => 'library';
handedOn() => 'library';

outside(read) {
  try {
    return read();
  } catch (error) {
    return error;
  }
}

main() {
  print(outside(() => declared(0)));
  print(shadowed());
  declared(n) => n == 0 ? 'local function' : declared(n - 1);
  shadowed() => 'local function';
  print(declared(2));
  print(shadowed());
  print(handedOn());
  {
    print(declared(0));
    declared(n) => 'inner function';
    print(declared(0));
  }
  print(declared(0));
}
