main() {
  var list = [];
  print('empty');
  list
    .removeLast();
}
