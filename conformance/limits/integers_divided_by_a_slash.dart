main() {
  print(7 ~/ 2);
  print(7 / 2);
}
