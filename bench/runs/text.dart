// Text that is made of numbers, read unit by unit and put together again: 40,000 lines of a register.
int value(String line) {
  int sum = 0;
  for (int i = 0; i < line.length; i++) {
    int unit = line.codeUnitAt(i);
    if (unit >= 48 && unit <= 57) sum = sum * 10 + unit - 48;
  }
  return sum;
}

main() {
  int sum = 0, length = 0;
  for (int i = 0; i < 40000; i++) {
    String line = 'no ${i % 1000};';
    sum = sum + value(line);
    String longer = line + line;
    length = length + longer.length;
  }
  print('$sum $length');
}
