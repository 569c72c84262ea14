import 'b\tc.dart';

main() {}
