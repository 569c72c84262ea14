main() {
  for (var i = 0, i = 1; i < 2; i++) print(i);
}
