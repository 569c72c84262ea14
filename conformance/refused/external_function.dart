@slow external int now();

main() {}
