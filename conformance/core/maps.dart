f(a) => {'x': a};
g() => <String, int>{'x': 1};
main() {}
