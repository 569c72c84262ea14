main() {
  if (true) var a; else var a;
  for (var i = 0; i < 1; i++) var i;
  for (var i in [1]) { var i; }
  switch (1) {
    case 1: var a; break;
    case 2: var a;
  }
  try {} catch (e) { var e; }
  a: a: while (true) break a;
  print('through');
}
