main() {
  print(1 is Unknown);
}
