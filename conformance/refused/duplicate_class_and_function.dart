class A {}

A() {}

main() {}
