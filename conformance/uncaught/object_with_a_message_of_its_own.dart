class Odd {
  final message = 'not shown';
}

main() {
  throw new Odd();
}
