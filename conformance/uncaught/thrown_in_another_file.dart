import 'b.dart';

main() {
  fail();
}
