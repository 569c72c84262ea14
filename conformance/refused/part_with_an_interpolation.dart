library l; part 'a$b.dart';

main() {}
