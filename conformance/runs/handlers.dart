class Odd implements Exception {
  final n;
  Odd(this.n);
}

attempt(f) {
  try {
    f();
  } on Odd catch (odd) {
    print('odd ${odd.n}');
  } on String {
    print('a string');
  } on int catch (n, trace) {
    print('$n ${trace is StackTrace} [$trace]');
  } catch (error) {
    print('else $error');
  }
}

main() {
  attempt(() => throw new Odd(3));
  attempt(() => throw 'x');
  attempt(() => throw 7);
  attempt(() => throw null);
  attempt(() => print('fine'));
  try {
    try {
      throw 'again';
    } catch (error) {
      print(error);
      rethrow;
    }
  } catch (error) {
    print('outer $error');
  }
}
