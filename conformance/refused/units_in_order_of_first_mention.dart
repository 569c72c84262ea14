import 'b.dart';
import 'c.dart';

main() {}
