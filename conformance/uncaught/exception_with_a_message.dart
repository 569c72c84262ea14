class Broken extends Exception {
  Broken(what) : super('no $what');
  toString() => 'never asked';
}

main() {
  throw new Broken('luck');
}
