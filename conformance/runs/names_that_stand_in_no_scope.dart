typedef F(a, a);

f(g(a, a)) => g(1, 2);

@f(1)
main() { print(f((a, b) => a + b)); }
