@a
part of l;

main() {}
