// An integer loop with arithmetic and branches: the lengths of Collatz's sequences up to 12,000.
int length(int n) {
  int turns = 0;
  while (n != 1) {
    if (n % 2 == 0) {
      n = n ~/ 2;
    } else {
      n = 3 * n + 1;
    }
    turns = turns + 1;
  }
  return turns;
}

main() {
  int longest = 0, sum = 0;
  for (int i = 1; i < 12000; i++) {
    int turns = length(i);
    sum = sum + turns;
    if (turns > longest) longest = turns;
  }
  print('$longest $sum');
}
