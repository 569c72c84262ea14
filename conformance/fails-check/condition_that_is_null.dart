main() {
  if (null) print('t'); else print('f');
}
