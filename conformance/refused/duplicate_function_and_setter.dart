a() => 1;
set a(v) {}

main() {}
