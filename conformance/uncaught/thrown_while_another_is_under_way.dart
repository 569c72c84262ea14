main() {
  try {
    throw 'first';
  } catch (error) {
    print(error);
    throw new StateError('in place of $error');
  } finally {
    print('finally');
  }
}
