import 'package:x/y.dart';

main() {}
