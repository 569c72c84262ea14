main() {
  var product = 1;
  for (var n = 1; ; n++) {
    product *= n;
    if (n >= 30) print('$n $product');
  }
}
