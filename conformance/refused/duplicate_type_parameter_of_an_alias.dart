typedef F<T, T>();

main() {}
