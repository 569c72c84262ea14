main() {
  var list = [];
  list.add(list);
  print(list);
}
