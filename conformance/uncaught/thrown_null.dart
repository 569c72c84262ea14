main() => throw null;
