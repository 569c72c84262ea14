f(a, b) {
  a += b;
  ++a;
  a.x += b;
  a[b] -= 1;
  a.x++;
}
main() {}
