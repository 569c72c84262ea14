const limit = 3;

main() { print(limit); }
