library l; import 'm.dart'; part 'p.dart';

main() {}
