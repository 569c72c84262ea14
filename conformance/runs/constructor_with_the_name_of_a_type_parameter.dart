class A<A> {
  var x;
  A(this.x);
  A.x();
}

main() {
  print(new A(1).x);
  print(new A.x().x);
}
