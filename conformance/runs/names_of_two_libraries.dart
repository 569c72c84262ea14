import 'b.dart' as x;
import 'b.dart' as x;

var _a = 'own', a, x = 'variable';

main() {
  print(_a);
  print(x);
}
