main() {
  var a;
  print(a);
  var a;
}
