main() { print("a"); }
