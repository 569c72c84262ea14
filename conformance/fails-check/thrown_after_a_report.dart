main() {
  try {
    int x = 'a';
  } catch (e) {
    throw 'gone';
  }
}
