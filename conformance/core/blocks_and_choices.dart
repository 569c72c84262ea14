f(a) {
  if (a) {
    a;
  } else
    null;
  if (a) a;
  if (a) var b, c;
}
main() {}
