main() {
  a: while (true) {
    break b;
  }
}
