main() {
  var f = (x) {
    var y;
    var y;
  };
}
