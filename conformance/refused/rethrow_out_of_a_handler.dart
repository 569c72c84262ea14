main() {
  try {
    print(1);
  } catch (error) {
    print(error);
  } finally {
    rethrow;
  }
}
