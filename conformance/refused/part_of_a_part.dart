library l;
part 'p.dart';

main() {}
