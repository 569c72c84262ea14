int number = 'text';
Unknown thing = 1;

String f(int x, [bool y = 'no']) => x;

class Box<T extends num> {
  T value;
  int get size => 'small';
}

void nothing() => 'something';

main() {
  List<String> list = <int>[1];
  list.add('a');
  print('$number $thing ${f('b')} $list');
  var box = new Box<String>();
  box.value = [];
  print('${box.value} ${box.size} ${nothing()}');
}
