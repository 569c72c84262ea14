var a, b;
final c = 1, a = 2;

main() {}
