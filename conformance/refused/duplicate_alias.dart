typedef F();

class F {}

main() {}
