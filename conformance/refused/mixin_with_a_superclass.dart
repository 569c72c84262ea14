class S {}

class M extends S {}

class C = Object with M;

main() {}
