library l;
part 'p.dart';

var x;

main() {}
