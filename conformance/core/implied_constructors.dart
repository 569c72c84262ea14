class B {}
class C extends B {}
main() {}
