class A extends Object with M {}

class M implements A {}

main() {}
