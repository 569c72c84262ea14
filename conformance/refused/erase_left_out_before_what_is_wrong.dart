main() { x = ; assert(y); }
