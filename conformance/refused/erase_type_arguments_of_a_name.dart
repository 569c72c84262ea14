main() { x = b<c>(d); }
