import 'b.dart' as own;
import 'b.dart' as shadowed;
import 'b.dart' as b hide hidden;
import 'c.dart';

var own = 'library';

outside(read) {
  try {
    return read();
  } catch (error) {
    return error;
  }
}

main() {
  print(own);
  print([b.declared, shadowed.declared, handedOn]);
  print(outside(() => b.hidden));
  print(shadowed.hidden);
  print(outside(() => b.handedOn));
  print(outside(() => shadowed));
  print(outside(() => declared));
  {
    var b = 'local';
    print(b.length);
  }
}
