// Sorts by merging; what compares alike keeps its order.
List sorted(List list, [int order(a, b)]) {
  if (order == null) order = (a, b) => a.compareTo(b);
  if (list.length < 2) return list.toList();
  var half = list.length ~/ 2, left = [], right = [];
  for (var i = 0; i < list.length; i++) (i < half ? left : right).add(list[i]);
  left = sorted(left, order);
  right = sorted(right, order);
  var merged = [], l = 0, r = 0;
  while (l < left.length || r < right.length) {
    if (r == right.length || (l < left.length && order(left[l], right[r]) <= 0)) {
      merged.add(left[l++]);
    } else {
      merged.add(right[r++]);
    }
  }
  return merged;
}

class Person implements Comparable<Person> {
  final String name;
  final int age;
  Person(this.name, this.age);
  int compareTo(Person other) {
    var by = age.compareTo(other.age);
    return by == 0 ? name.compareTo(other.name) : by;
  }
  String toString() => '$name ($age)';
}

by(key) => (a, b) => key(a).compareTo(key(b));
reverse(order) => (a, b) => -order(a, b);

void swapSort(List list) {
  bool again = true;
  while (again) {
    again = false;
    for (int i = 1; i < list.length; i++) {
      if (list[i - 1].compareTo(list[i]) > 0) {
        var x = list[i];
        list[i] = list[i - 1];
        list[i - 1] = x;
        again = true;
      }
    }
  }
}

main() {
  print(sorted([5, 2, 9, -1, 5, 0]));
  print(sorted(['pear', 'fig', 'Apple', 'figs', '']));
  var people = [new Person('eve', 30), new Person('bob', 25), new Person('ann', 30), new Person('cid', 25)];
  print(sorted(people));
  print(sorted(people, by((p) => p.age)));
  print(sorted(people, reverse(by((p) => p.name))));
  print(sorted(people, by((p) => p.name.length)).map((p) => p.name));
  var list = ['d', 'a', 'c', 'b'];
  swapSort(list);
  print(list);
  print(sorted([]));
  try {
    sorted([1, 'a']);
  } catch (error) {
    print(error);
  }
  try {
    sorted([new Object(), 1]);
  } catch (error) {
    print(error);
  }
}
