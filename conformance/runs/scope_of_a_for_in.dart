var shadowed = 'library', handedOn = 'library';

outside(read) {
  try {
    return read();
  } catch (error) {
    return error;
  }
}

main() {
  for (var declared in ['for in']) {
    print(declared);
    for (var shadowed in [shadowed + ', then for in']) {
      print(declared);
      print(shadowed);
      print(handedOn);
      var shadowed = 'body';
      print(shadowed);
    }
    print(shadowed);
  }
  print(outside(() => declared));
}
