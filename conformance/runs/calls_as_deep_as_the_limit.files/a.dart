f(n) { if (n > 0) f(n - 1); }

main() {
  f(9997);
  print('up again');
}
