f(x) => x is! List<int> && (x as num) > 1;
