main() {
  print(1);
}
