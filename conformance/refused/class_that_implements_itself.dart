class A {}

class B extends A implements B {}

main() {}
