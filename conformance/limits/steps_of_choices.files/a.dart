main() {
  switch (2) { case 1: break; case 2: break; }
  try { throw 1; } on int catch (e) {} finally {}
  if (null) {} else {}
  true ? 1 : 2;
  true && false;
  1 != 2;
  print('all');
}
