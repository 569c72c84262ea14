import 'b.dart' hide hidden;
import 'c.dart';
import 'b.dart' as b show hidden, Thing;

class Own extends Thing {
  _secret() => 'own';
}

attempt(f) {
  try {
    print(f());
  } catch (error) {
    print(error);
  }
}

main() {
  attempt(() => shared);
  attempt(() => hidden);
  attempt(() => b.hidden);
  attempt(() => b.shared);
  attempt(() => new b.Thing());
  attempt(() => deep);
  attempt(() => deeper);
  attempt(() => new Own().open());
  attempt(() => new Own()._secret());
  attempt(() => new Thing()._secret());
  attempt(() => _private());
}
