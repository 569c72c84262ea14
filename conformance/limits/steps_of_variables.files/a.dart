main() {
  var x = 1;
  x = x + 2;
  x++;
  var y;
  y = x == 4;
  y = !y;
  print('all');
}
