class Fault implements Exception {
  final code;
  Fault(this.code);
  toString() => 'fault $code';
}

class Grave extends Fault {
  Grave() : super('grave');
}

logged(f) {
  try {
    return f();
  } on Grave {
    print('grave');
    rethrow;
  } on Fault catch (fault) {
    print('logged $fault');
    if (fault.code > 1) rethrow;
    return 'mended';
  } on Error {
    print('an error');
    rethrow;
  }
}

attempt(f) {
  try {
    print(logged(f));
  } catch (e) {
    print('out: $e');
  }
}

retried(times, f) {
  for (var n = 1; ; n++) {
    try {
      return f(n);
    } catch (e) {
      print('try $n: $e');
      if (n == times) rethrow;
    }
  }
}

main() {
  attempt(() => 'fine');
  attempt(() => throw new Fault(1));
  attempt(() => throw new Fault(2));
  attempt(() => throw new Grave());
  attempt(() => null.length);
  attempt(() => throw 'text');
  attempt(() => logged(() => throw new Fault(7)));
  print(retried(3, (n) => n == 2 ? 'second' : throw 'bad $n'));
  try {
    retried(2, (n) => throw n * 10);
  } on int catch (n) {
    print('gave up at $n');
  }
  try {
    try {
      throw 'one';
    } catch (e) {
      try {
        throw 'two';
      } catch (f) {
        print('$e $f');
      }
      rethrow;
    }
  } catch (e) {
    print(e);
  }
  try {
    try {
      throw 'one';
    } catch (e) {
      try {
        rethrow;
      } catch (f) {
        print(identical(e, f));
        throw 'three';
      } finally {
        print('finally');
      }
    }
  } catch (e) {
    print(e);
  }
  try {
    throw new Grave();
  } on String {
    print('never');
  } on Exception catch (e) {
    print([e is Fault, e.code, '$e']);
  }
}
