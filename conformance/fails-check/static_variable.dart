class A {
  static String s = 'a';
}

main() {
  A.s = 'b';
  print(A.s);
  A.s = 3;
}
