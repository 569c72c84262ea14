import 'a.dart';
import 'b.dart';
f(c) {
  x;
  x = c;
  x(c);
}
main() {}
