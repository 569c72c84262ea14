main() {
  var list = new List(1);
  list[0] = 'a';
  print(list);
  list.add('b');
}
