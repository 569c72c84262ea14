library c;
import 'b.dart' hide b;
part 'e.dart';

f(x) => g(new D(x));
