part 'p.dart';

main() {}
