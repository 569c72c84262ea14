var a;
set a(v) {}

main() {}
