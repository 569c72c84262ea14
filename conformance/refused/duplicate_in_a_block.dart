main() {
  var a;
  {
    var a;
    var a;
  }
}
