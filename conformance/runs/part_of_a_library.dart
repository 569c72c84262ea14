library l; part 'p.dart';

main() { print(x); }
