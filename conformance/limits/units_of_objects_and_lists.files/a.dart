class A {
  var x, y;
}

main() {
  new A();
  var l = [1, 2, 3];
  l.add(4);
  l[0] = 5;
  l.removeLast();
  new List(3);
  new List();
  l.length = 5;
  print('all');
}
