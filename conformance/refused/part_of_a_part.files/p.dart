part of l;
part 'q.dart';
