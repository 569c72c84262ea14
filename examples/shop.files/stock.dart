library stock;

import 'money.dart';
export 'money.dart' show Money;
part 'item.dart';

class Stock {
  final Map<String, Item> _items = new Map<String, Item>();

  // What is there already takes the new price.
  void add(String name, int count, Money price) {
    if (!_items.containsKey(name)) _items[name] = new Item(name);
    var item = _items[name];
    item.count += count;
    item.price = price;
  }

  void take(String name, int count) {
    var item = _items[name];
    if (item == null || item.count < count) throw new StateError('not enough of $name');
    item.count -= count;
  }

  Iterable<Money> get values => _items.values.map((item) => item.value);

  String toString() => _items.values.join(', ');
}
