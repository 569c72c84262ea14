main() {
  try {
  } catch (e, e) {
  }
}
