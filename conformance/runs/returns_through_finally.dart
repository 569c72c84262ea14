var log = [];

find(list, x) {
  for (var i = 0; i < list.length; i++) {
    try {
      if (list[i] == null) continue;
      if (list[i] == x) return i;
      if (list[i] == 'stop') break;
      log.add('seen ${list[i]}');
    } finally {
      log.add('checked $i');
    }
  }
  return -1;
}

nested() {
  try {
    try {
      return log.length;
    } finally {
      log.add('inner');
    }
  } finally {
    log.add('outer');
  }
}

dropped() {
  for (var i in [1, 2, 3]) {
    try {
      throw i;
    } finally {
      if (i < 3) continue;
      return 'dropped up to $i';
    }
  }
}

kept() {
  var x = 1;
  try {
    return x++;
  } finally {
    x = 10;
    log.add(x);
  }
}

late() {
  try {
    return 1;
  } finally {
    throw 'late';
  }
}

again() {
  try {
    throw 'a';
  } catch (e) {
    throw '$e, then b';
  } finally {
    log.add('end');
  }
}

shown() {
  print(log);
  log.clear();
}

main() {
  print(find([1, null, 2, 3], 2));
  shown();
  print(find(['a', 'stop', 'b'], 'b'));
  shown();
  print(nested());
  shown();
  print(dropped());
  print(kept());
  shown();
  for (var f in [late, again]) {
    try {
      f();
    } catch (e) {
      print(e);
    }
  }
  shown();
  outer: {
    try {
      break outer;
    } finally {
      print('leaving');
    }
    print('never');
  }
  var made = [];
  for (var i = 0; i < 2; i++) {
    try {
      throw 'error $i';
    } catch (e, s) {
      made.add(() => '$e$s $i');
    } finally {
      made.add(() => 'finally $i');
    }
  }
  print(made.map((f) => f()));
}
