count(n) {
  var turns = 0;
  do {
    turns++;
    n -= 1;
  } while (n > 0);
  print('$turns turns');
  return n;
}

main() {
  print(count(3));
  print(count(0));
  var n = 5;
  do n++; while (n < 8);
  print(n);
  do {
    n--;
    if (n.isEven) continue;
    print('odd $n');
  } while (n > 3);
  print(n);
  do {
    print('left');
    break;
  } while (throw 'never asked');
  do ; while (n-- > 0);
  print(n);
  for (var i = 0; i < 2; i++) do print(i); while (false);
  print('end');
}
