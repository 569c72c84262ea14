main() {
  while (true) {
    [1].forEach((x) {
      break;
    });
  }
}
