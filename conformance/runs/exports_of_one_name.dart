import 'b.dart';
import 'e.dart';
import 'e.dart';

outside(read) {
  try {
    return read();
  } catch (error) {
    return error;
  }
}

main() {
  print(outside(() => twice));
  print(own);
  print(once);
  print(outside(() => accessor));
  print(outside(() => accessor = 1));
}
