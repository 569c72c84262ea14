library l;
part 'p.dart';
