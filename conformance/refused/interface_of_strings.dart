class A implements Comparable, String {}

main() {}
