library l;
@a import 'p.dart';

main() {}
