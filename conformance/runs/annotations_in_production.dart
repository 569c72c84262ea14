class P<T extends num> {}

int text(n) => '$n';

main() {
  int x = 'a';
  bool b = x;
  if (b) print('t'); else print('f');
  new P<String>();
  print(text(x));
  switch (x) {
    case 1:
      print('one');
  }
}
