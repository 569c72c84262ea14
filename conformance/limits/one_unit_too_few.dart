main() { print("a"); var l = [1, 2, 3]; }
