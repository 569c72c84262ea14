class A extends List {}

main() {}
