var top;

class Loop {
  var field;
  run() {
    for (field in [1, 2]) ;
    return field;
  }
}

class Down {
  var n = 3;
  get iterator => this;
  moveNext() => n-- > 0;
  get current => n;
}

main() {
  for (var n in new Down()) print(n);
  for (top in ['a', 'b']) ;
  print(top);
  print(new Loop().run());
  try {
    for (var x in 5) print(x);
  } catch (error) {
    print(error);
  }
}
