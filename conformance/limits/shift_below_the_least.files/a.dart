main() { print(-1 << 128); }
