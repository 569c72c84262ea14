get a => 1;
set a(v) {}
get a => 2;

main() {}
