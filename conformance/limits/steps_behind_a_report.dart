main() {
  try {
    int x = 'a';
  } catch (e) {}
  for (;;) {}
}
