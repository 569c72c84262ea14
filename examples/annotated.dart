// A shelf that counts what it holds, with a type wherever one may stand.
class Shelf<T extends Object> {
  static final int room = 3;
  final List<T> pieces = new List<T>();
  Map<String, List<int>> places = {'low': <int>[1, 2]};

  Shelf(T this.first, [int count = 1]) : super();

  T first;

  int get length => pieces.length;

  void set mark(String text) {
    const String before = 'mark: ';
    print('$before${text}');
  }

  bool operator <(Shelf<T> other) => length < other.length;

  T find(bool test(T piece), {T otherwise: null}) {
    for (T piece in pieces) {
      if (test(piece)) return piece;
    }
    return otherwise;
  }
}

typedef int Measure(Shelf shelf);

int measured(Shelf<String> shelf, Measure measure) {
  num size = measure(shelf);
  try {
    return size as int;
  } on CastError catch (error) {
    return 0;
  }
}
