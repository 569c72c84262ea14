library l;
part 'p.dart';
part 'q.dart';

main() {}
