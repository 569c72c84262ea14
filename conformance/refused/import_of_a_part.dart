import 'p.dart';

main() {}
