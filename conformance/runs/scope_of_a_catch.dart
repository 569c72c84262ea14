var shadowed = 'library', handedOn = 'library';

outside(read) {
  try {
    return read();
  } catch (error) {
    return error;
  }
}

main() {
  try {
    throw 'thrown';
  } catch (declared, shadowed) {
    print(declared);
    print(shadowed is StackTrace);
    print(handedOn);
    var declared = 'block';
    print(declared);
  } finally {
    print(outside(() => declared));
    print(shadowed);
  }
  print(outside(() => declared));
  print(shadowed);
}
