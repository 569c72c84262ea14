import 'b.dart';
import 'x/y';

main() {}
