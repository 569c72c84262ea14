library a.b;
import 'x.dart' as p show q, r hide s;
export 'y.dart';
part 'w.dart';
int t;
