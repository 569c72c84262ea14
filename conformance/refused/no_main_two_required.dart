main(a, b) {}
