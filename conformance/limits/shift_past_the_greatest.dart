main() {
  print(1 << 126);
  print(1 << 127);
}
