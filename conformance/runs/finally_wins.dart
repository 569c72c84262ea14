a() { try { return 1; } finally { return 2; } }

b() { try { throw 'x'; } finally { return 3; } }

c() {
  for (;;) {
    try { throw 'y'; } finally { break; }
  }
  return 4;
}

d() {
  var x = 5;
  try { return x; } finally { x = 9; }
}

e() {
  try {
    try { throw 'first'; } finally { throw 'second'; }
  } catch (error) {
    return error;
  }
}

f() {
  try { throw 'p'; } catch (error) { return 'caught $error'; } finally { print('done'); }
}

main() {
  print(a());
  print(b());
  print(c());
  print(d());
  print(e());
  print(f());
}
