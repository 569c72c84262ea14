var shadowed = 'library', handedOn = 'library';

outside(read) {
  try {
    return read();
  } catch (error) {
    return error;
  }
}

function(declared, shadowed, [optional = 'default']) {
  print(declared);
  print(shadowed);
  print(optional);
  print(handedOn);
  var shadowed = shadowed + ', then body';
  print(shadowed);
}

named({declared, shadowed: 'default'}) => print([declared, shadowed, handedOn]);

typed(String String) => print(String);

set setter(shadowed) => print([shadowed, handedOn]);

withFunction(shadowed(declared)) {
  print(outside(() => declared));
  print(shadowed('argument'));
}

main() {
  function('parameter', 'parameter');
  named(declared: 'named');
  typed('text');
  setter = 'value';
  withFunction((x) => x);
  print(outside(() => declared));
  print(shadowed);
}
