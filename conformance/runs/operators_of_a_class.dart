class Row {
  var cells = [1, 2, 3];
  operator [](i) => cells[i];
  operator []=(i, v) { cells[i] = v * 10; }
  operator -() => new Row()..cells = cells.map((c) => -c);
  operator -(n) => 'less $n';
  operator ~() => 'not';
  operator ==(other) => other is Row;
  operator <(other) => 'maybe';
  operator >>(n) => 'by $n';
  toString() => '$cells';
}

main() {
  var row = new Row();
  print(row[1]);
  print(row[1] = 5);
  print(row);
  print(-row);
  print(row - 4);
  print(~row);
  print(row == new Row());
  print(row != 3);
  print(row == null);
  print(row < 1);
  print(row >> 2);
  row[0]++;
  row[2] += 4;
  print(row);
}
