// Functions that take variables along, and errors that are caught: 80,000 turns.
int twice(f, int x) => f(f(x));

int checked(int n) {
  if (n % 3 == 0) throw new ArgumentError('third');
  return n;
}

main() {
  int sum = 0, caught = 0;
  for (int i = 0; i < 80000; i++) {
    var add = (n) => n + i % 7;
    try {
      sum = sum + twice(add, checked(i));
    } on ArgumentError catch (e) {
      caught = caught + 1;
    }
  }
  print('$sum $caught');
}
