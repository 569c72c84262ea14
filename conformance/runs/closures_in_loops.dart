main() {
  var made = [];
  for (var i = 0; i < 2; i++) made.add(() => i++);
  print(made[0]());
  print(made[0]());
  print(made[1]());

  made = [];
  for (var x in ['a', 'b']) made.add(() => x);
  print(made.map((f) => f()));

  made = [];
  var n = 0;
  while (n < 2) {
    made.add(() => n);
    n++;
  }
  print(made.map((f) => f()));

  made = [];
  for (var i = 0; i < 2; made.add(() => i), i++) ;
  print(made.map((f) => f()));
}
