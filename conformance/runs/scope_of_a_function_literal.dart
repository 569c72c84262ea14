var shadowed = 'library', handedOn = 'library';

outside(read) {
  try {
    return read();
  } catch (error) {
    return error;
  }
}

main() {
  var around = 'main';
  var literal = (declared, shadowed) {
    print([declared, shadowed, handedOn, around]);
    var around = 'body';
    return () => [declared, shadowed, around];
  };
  print(literal('parameter', 'parameter')());
  print(((shadowed) => [shadowed, around])('arrow'));
  print(outside(() => declared));
  print([shadowed, around]);
}
