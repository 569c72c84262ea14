// A sort by merging, of lists of anything, in the order of a comparison.
typedef int Comparison(a, b);

class Sorter<T> {
  final Comparison compare;

  Sorter(this.compare);

  List<T> sorted(List<T> items) {
    if (items.length < 2) return items;
    var middle = items.length ~/ 2;
    return merged(sorted(slice(items, 0, middle)), sorted(slice(items, middle, items.length)));
  }

  List<T> slice(List<T> items, int from, int to) {
    var some = new List<T>();
    for (var i = from; i < to; i++) some.add(items[i]);
    return some;
  }

  // Of equal items that of the first list comes first.
  List<T> merged(List<T> first, List<T> second) {
    var all = new List<T>();
    var i = 0, j = 0;
    while (i < first.length || j < second.length) {
      if (j == second.length || i < first.length && compare(first[i], second[j]) <= 0) {
        all.add(first[i++]);
      } else {
        all.add(second[j++]);
      }
    }
    return all;
  }
}

class City implements Comparable<City> {
  final String name;
  final int people;

  City(this.name, this.people);

  int compareTo(City other) => people - other.people;

  String toString() => '$name ($people)';
}

int backwards(a, b) => b.compareTo(a);

main() {
  var numbers = new Sorter<int>((a, b) => a - b);
  print(numbers.sorted([31, 4, 15, 9, 26, 5, 35]));

  var words = new Sorter<String>((a, b) => a.compareTo(b));
  print(words.sorted(['pear', 'fig', 'apple', 'peach', '']));

  var lengths = new Sorter<String>((a, b) => a.length - b.length);
  print(lengths.sorted(['pear', 'fig', 'apple', 'kiwi', 'nut']).join(' '));

  var cities = new Sorter<City>(backwards);
  for (var city in cities.sorted([new City('Ghent', 260), new City('Oslo', 700), new City('Basel', 170)])) {
    print(city);
  }

  // A list knows what it is a list of.
  print(numbers.sorted([2, 1]) is List<int>);
  print(numbers.sorted([2, 1]) is List<String>);
}
