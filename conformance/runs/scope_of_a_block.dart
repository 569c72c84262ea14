var shadowed = 'library', handedOn = 'library';

outside(read) {
  try {
    return read();
  } catch (error) {
    return error;
  }
}

main() {
  {
    print(shadowed);
    var declared = 'block', shadowed = shadowed + ', then block';
    print(declared);
    print(shadowed);
    print(handedOn);
    {
      print(declared);
      var declared = 'inner block';
      print(declared);
    }
    print(declared);
  }
  print(outside(() => declared));
  print(shadowed);
}
