class Steps {
  var at = 0, last;
  Steps(this.last);
  get current => at;
  moveNext() => ++at <= last;
}

class Numbers extends Iterable {
  var last;
  Numbers(this.last);
  get iterator => new Steps(last);
}

main() {
  var numbers = new Numbers(4);
  print(numbers.length);
  print([numbers.isEmpty, numbers.isNotEmpty, new Numbers(0).isEmpty]);
  print(numbers.map((n) => n * n));
  print(numbers.where((n) => n.isEven));
  print(numbers.where((n) => n));
  print(numbers.fold(0, (sum, n) => sum + n));
  print([numbers.any((n) => n > 3), numbers.every((n) => n > 3)]);
  print([numbers.contains(3), numbers.contains(5)]);
  print(numbers.toList());
  print(numbers.join());
  print(numbers.join(' + '));
  numbers.forEach(print);
  print(numbers);
}
