f(int a, [String b = 'x', c]) {}
g({int n: -1, m: true}) {}
h(int p(String s)) {}
main() {}
