import 'b.dart';
import 'c.dart' as c;

main() => print(c.f(1));
