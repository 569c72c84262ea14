main() => throw main;
