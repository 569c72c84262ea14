f() {
  return this;
}
