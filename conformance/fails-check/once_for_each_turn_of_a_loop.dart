main() {
  for (var i = 0; i < 2; i++) {
    try {
      bool b = i;
    } catch (e) {}
  }
}
