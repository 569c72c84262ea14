class A extends Unknown {}

main() {}
