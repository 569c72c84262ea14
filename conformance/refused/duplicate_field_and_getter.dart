class A {
  var x;
  get x => 1;
}

main() {}
