main() {
  var list = [3, 1];
  list.add(2);
  list.insert(1, 9);
  print(list);
  print([list.removeAt(0), list.removeLast(), list.length]);
  list.addAll([5, 5]);
  list[0] = 7;
  print([list.indexOf(5), list.indexOf(8), list.contains(1)]);
  list.length = 5;
  print(list);
  list.length = 1;
  print('$list ${list.isEmpty}');
  list.clear();
  print(list);

  var fixed = new List(2);
  fixed[0] = 'a';
  print(fixed);
  for (var f in [() => fixed.add(1), () => fixed.length = 3, () => fixed[2], () => new List(-1)]) {
    try {
      f();
    } catch (error) {
      print(error);
    }
  }

  var seen = [], grows = [1];
  for (var x in grows) {
    seen.add(x);
    if (x < 3) grows.add(x + 1);
  }
  print(seen);
}
