typedef F();

class A extends F {}

main() {}
