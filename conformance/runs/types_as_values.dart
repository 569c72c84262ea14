class Pair<A, B> {
  types() => [A, B];
  list() => new List<A>();
  holds(x) => x is B;
  other() => new Pair<B, List<A>>();
}

class Words extends Pair<String, int> {}

main() {
  print([int, List, Pair, main.runtimeType]);
  print(new Pair<int, String>().runtimeType);
  print(new Pair().runtimeType);
  print(new Pair<int, dynamic>().runtimeType);
  print(new Pair<int, String>().other().runtimeType);
  print(new Words().types());
  print(new Words().list().runtimeType);
  print([new Words().holds(1), new Words().holds('a')]);
  print(new Words().runtimeType == Words);
  print(<String, int>{}.runtimeType);
}
