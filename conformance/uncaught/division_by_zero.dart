main() {
  var n = 0;
  print(1 +
      7 ~/ n);
}
