import 'b.dart';

main() => print([ofB, ofC, ofD, new Both()]);
