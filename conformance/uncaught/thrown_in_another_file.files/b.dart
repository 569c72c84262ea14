// Fails.

fail() {
  throw 'from b';
}
