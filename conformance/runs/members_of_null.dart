main() {
  print(null.toString());
  print(null.runtimeType);
  print(null.hashCode);
  for (var f in [() => null.size, () => null + 1, () => null[0], () => (null)()]) {
    try {
      f();
    } catch (error) {
      print(error);
    }
  }
}
