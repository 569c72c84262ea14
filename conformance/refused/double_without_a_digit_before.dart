main() { print(.5); }
