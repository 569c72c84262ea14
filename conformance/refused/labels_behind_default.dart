main() {
  switch (1) {
    default:
      a: case 1:
  }
}
