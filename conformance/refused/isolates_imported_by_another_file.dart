import 'b.dart';
import 'c.dart' as c;

main() => c.f(1);
