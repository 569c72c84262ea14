main() {
  var list = [1, 2];
  list.add(3);
  list[2] = 4;
}
