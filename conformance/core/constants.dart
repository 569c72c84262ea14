f() {
  null;
  true;
  false;
  12;
  'text';
  f;
}
main() {}
