library l; import 'a' '.dart';

main() {}
