var shadowed = 'library', handedOn = 'library';

outside(read) {
  try {
    return read();
  } catch (error) {
    return error;
  }
}

main() {
  if (true) var declared = 'branch', shadowed = 'branch', shown = print([declared, shadowed, handedOn]);
  else var declared = 'other branch';
  print(outside(() => declared));
  print(shadowed);
  do {
    var declared = 'body', shadowed = 'body';
    print([declared, shadowed, handedOn]);
  } while (shadowed != 'library');
  while (shadowed == 'library') {
    print(shadowed);
    var shadowed = 'body';
    print(shadowed);
    break;
  }
  print(outside(() => declared));
}
