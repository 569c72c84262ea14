f(n) { if (n > 0) f(n - 1); }

main() {
  print('down');
  f(9998);
}
