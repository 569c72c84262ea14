class A<T, T> {}

main() {}
