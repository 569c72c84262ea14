search(limit) {
  var row = 0, tried = 0;
  rows: do {
    row++;
    var column = 0;
    do {
      column++;
      tried++;
      if (column == row) continue rows;
      if (row * column == limit) break rows;
      print('$row $column');
    } while (column < 3);
    print('row $row is through');
  } while (row < 4);
  return '$row after $tried';
}

main() {
  print(search(6));
  print(search(100));
  var outer = 0, inner = 0;
  do {
    do inner++; while (inner % 3 != 0);
    outer++;
  } while (outer < 3);
  print('$outer $inner');
  var n = 0;
  do {
    try {
      n++;
      if (n == 2) continue;
      if (n == 4) break;
      print('n is $n');
    } finally {
      print('finally $n');
    }
  } while (n < 9);
  print(n);
}
