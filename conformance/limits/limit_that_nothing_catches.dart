main() {
  try {
    print(1 / 2);
  } catch (error) {
    print('caught');
  } finally {
    print('finally');
  }
}
