f(a) {
  l: while (a) {
    if (a) continue l;
    if (a) break;
  }
  m: {
    break m;
  }
  throw a;
  return a;
}
main() {}
