var shadowed = 'library', handedOn = 'library';

outside(read) {
  try {
    return read();
  } catch (error) {
    return error;
  }
}

main() {
  switch (1) {
    case 1:
      print(shadowed);
      var declared = 'case 1', shadowed = 'case 1';
      print(declared);
      print(shadowed);
      print(handedOn);
      continue declared;
    declared:
    case 2:
      print(outside(() => declared));
      print(shadowed);
      var declared = 'case 2';
      print(declared);
  }
  print(outside(() => declared));
}
