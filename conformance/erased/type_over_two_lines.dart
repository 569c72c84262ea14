main() {
  Map<String,
      int> m = new Map<String, int>();
  throw 'x';
}
