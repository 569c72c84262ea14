main() {
  rows: for (var row = 1; row <= 3; row++) {
    for (var column = 1; column <= 3; column++) {
      if (column == row) continue rows;
      if (row == 3) break rows;
      print('$row $column');
    }
  }
  block: {
    print('in');
    break block;
    print('never');
  }
  choice: if (true) {
    break choice;
  }
  var n = 0;
  do {
    n++;
    if (n < 3) continue;
    break;
  } while (true);
  print(n);
}
