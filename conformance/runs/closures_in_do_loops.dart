make(n) {
  var made = [];
  do {
    var kept = n * 10;
    made.add(() => kept++);
    n--;
  } while (n > 0);
  made.add(() => n);
  return made;
}

main() {
  var made = make(3);
  print(made.map((f) => f()));
  print(made.map((f) => f()));
  var asked = [];
  do {
    asked.add(() => asked.length);
  } while (asked.length < 3);
  print(asked.map((f) => f()));
  var seen = [], n = 0;
  do n++; while (((x) { seen.add(() => x + n); return x < 2; })(n));
  print(seen.map((f) => f()));
}
