main() {
  var a;
  a() {}
}
