var _a, a;

main() {}
