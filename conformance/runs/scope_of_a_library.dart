library app;

import 'b.dart';
part 'p.dart';

var declared = 'library', shadowed = 'library', _private = 'library';

outside(read) {
  try {
    return read();
  } catch (error) {
    return error;
  }
}

class StringBuffer {
  toString() => 'library';
}

main() {
  print([declared, shadowed, handedOn, _private]);
  print([ofPart, readPart()]);
  print(new StringBuffer());
  print(readB());
  print(outside(() => _privateToB()));
}
