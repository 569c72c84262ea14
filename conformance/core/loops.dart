f(a) {
  while (a) a.m();
  do a.m(); while (a);
  for (var i = a; i; i.n()) a.m();
  for (;;) {}
}
main() {}
