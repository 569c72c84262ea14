const limit = 3;

main() {
  break;
}
