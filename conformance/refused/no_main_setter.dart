set main(a) {}
