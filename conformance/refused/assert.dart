main() { assert(true); }
