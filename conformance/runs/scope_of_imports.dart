import 'b.dart';
import 'c.dart' show shown, both;
import 'd.dart' hide hidden;

outside(read) {
  try {
    return read();
  } catch (error) {
    return error;
  }
}

main() {
  print([declared, shown, exported]);
  print(outside(() => both));
  print(outside(() => notShown));
  print(outside(() => hidden));
  print(outside(() => notExported));
  print(new StringBuffer());
  print(new List().length);
}
