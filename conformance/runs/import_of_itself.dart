import 'import_of_itself.dart';

main() { print('once'); }
