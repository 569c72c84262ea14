class Nest<T> {
  next() => new Nest<List<T>>();
}

main() {
  var nest = new Nest();
  while (true) nest = nest.next();
}
