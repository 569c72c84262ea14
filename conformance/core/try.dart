f(a) {
  try {
    a.m();
  } on int catch (e) {
    e;
  } on String {
    rethrow;
  } catch (e, s) {
    s;
  } finally {
    a;
  }
  try {
  } finally {}
}
main() {}
