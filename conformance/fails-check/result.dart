int text(n) {
  return '$n';
}

main() {
  text(3);
}
