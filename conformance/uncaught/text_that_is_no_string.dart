class A {
  toString() => 5;
}

main() {
  print(new A());
}
