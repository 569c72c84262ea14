var shadowed = 'library', handedOn = 'library';

outside(read) {
  try {
    return read();
  } catch (error) {
    return error;
  }
}

main() {
  for (var declared = 'for', shadowed = shadowed + ', then for'; declared != 'done'; declared = 'done') {
    print(declared);
    print(shadowed);
    print(handedOn);
    var shadowed = 'body';
    print(shadowed);
  }
  print(outside(() => declared));
  print(shadowed);
}
