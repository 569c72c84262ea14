main() {
  var b = 1;
  var c = 1;
  print((a) => b == c == 2);
  print(((a) => b == c)(0));
}
