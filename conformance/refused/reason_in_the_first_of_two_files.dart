import 'b.dart';

main() {
  continue;
}
