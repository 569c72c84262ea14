enum Color { red, green }

main() { print(Color.red); }
