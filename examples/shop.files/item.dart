part of stock;

// So many of a thing, at a price each.
class Item {
  final String name;
  int count = 0;
  Money price;

  Item(this.name);

  Money get value => price * count;

  String toString() => '$count $name at $price';
}
