main() {
  if (1) print('t'); else print('f');
}
