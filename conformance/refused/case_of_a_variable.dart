main() {
  var x = 1;
  switch (1) {
    case x: break;
  }
}
