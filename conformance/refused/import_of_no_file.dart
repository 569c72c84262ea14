import 'b.dart';

main() {}
