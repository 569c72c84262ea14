library l; import 'p.dart'; part 'p.dart';

main() {}
