class B {
  B(a);
}
class C extends B {
  var x = 1;
  var y, z;
  C.k(this.y, b) : z = b, super(b) {
    b;
  }
}
main() {}
