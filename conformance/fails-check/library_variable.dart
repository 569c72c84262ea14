int x = 1;

main() {
  x = 2;
  print(x);
  x = 'a';
}
