class A {}

class B extends int {}

main() {}
