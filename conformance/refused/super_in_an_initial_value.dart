class A {
  var x = () => super.toString();
}

main() {}
