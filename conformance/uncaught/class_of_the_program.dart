class Shortage implements Exception {
  final missing;
  Shortage(this.missing);
  toString() => 'lacks $missing';
}

pay(sum) {
  try {
    if (sum > 10) {
      throw new Shortage(sum - 10);
    }
    print('paid $sum');
  } finally {
    print('asked for $sum');
  }
}

main() {
  try {
    pay(5);
    pay(50);
  } on String {
    print('never');
  } finally {
    print('closed');
  }
}
