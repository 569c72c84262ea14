final limit = 3;

main() {
  limit = 4;
}
