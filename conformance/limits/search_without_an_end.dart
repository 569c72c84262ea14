main() {
  var n = 1;
  search: while (true) {
    n++;
    for (var d = 2; d < n; d++) {
      if (n % d == 0) continue search;
    }
    if (n == 2) print('first $n');
  }
}
