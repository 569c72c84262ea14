main() {
  try {
    throw new StateError('first');
  } catch (error) {
    print('seen');
    rethrow;
  } finally {
    print('finally');
  }
}
