import '';

main() {}
