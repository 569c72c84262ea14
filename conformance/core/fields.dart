class C {
  var a;
  final int b = 1;
}
main() {}
