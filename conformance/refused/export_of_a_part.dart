library q; export 'p.dart';

main() {}
