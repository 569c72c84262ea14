// A list of integers that is filled, summed up in place and read: 200,000 items.
main() {
  List<int> items = [];
  for (int i = 0; i < 200000; i++) items.add(i * 13 % 997);
  for (int i = 1; i < items.length; i++) items[i] = items[i] + items[i - 1] % 1000;
  int even = 0, greatest = 0;
  for (int item in items) {
    if (item % 2 == 0) even++;
    if (item > greatest) greatest = item;
  }
  print('${items.length} $even $greatest');
}
