main() {
  x();

