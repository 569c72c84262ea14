// How queens stand on a board of n rows so that none takes another.
queens(n) {
  var found = [];
  place(rows) {
    if (rows.length == n) {
      found.add(rows.join());
      return;
    }
    for (var column = 1; column <= n; column++) {
      var free = true;
      for (var row = 0; row < rows.length; row++) {
        var apart = rows[row] - column;
        if (apart == 0 || apart.abs() == rows.length - row) {
          free = false;
          break;
        }
      }
      if (free) place(rows.toList()..add(column));
    }
  }
  place([]);
  return found;
}

towers(n, from, to, over, moved) {
  if (n == 0) return 0;
  var before = towers(n - 1, from, over, to, moved);
  moved('$n: $from to $to');
  return before + 1 + towers(n - 1, over, to, from, moved);
}

permutations(list) {
  if (list.isEmpty) return [[]];
  var all = [];
  for (var i = 0; i < list.length; i++) {
    var rest = list.toList()..removeAt(i);
    for (var p in permutations(rest)) all.add([list[i]]..addAll(p));
  }
  return all;
}

sieve(n) {
  var composite = new List(n + 1), primes = [];
  for (var i = 2; i <= n; i++) {
    if (composite[i] == true) continue;
    primes.add(i);
    for (var k = i * i; k <= n; k += i) composite[k] = true;
  }
  return primes;
}

main() {
  print(queens(4));
  print(queens(5).length);
  print(queens(3));
  print(towers(2, 'a', 'c', 'b', print));
  print(towers(8, 'a', 'c', 'b', (move) => null));
  print(permutations([1, 2, 3]).map((p) => p.join()).join(' '));
  print(sieve(50));
}
