import 'b.dart';

main() { print('round'); }
