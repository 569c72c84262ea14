part of x;

main() {}
