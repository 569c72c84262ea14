// A program of four files: this one, two libraries, and a part of one of them.
import 'stock.dart' as stock;
import 'money.dart' show total;

main() {
  var shop = new stock.Stock()
    ..add('pen', 12, new stock.Money(150))
    ..add('ink', 3, new stock.Money(1205))
    ..add('pen', 8, new stock.Money(140));
  print(shop);
  print(total(shop.values));
  try {
    shop.take('ink', 4);
  } on StateError catch (error) {
    print(error.message);
  }
  shop.take('pen', 20);
  print(shop);
  print(new stock.Money(100) == new stock.Money(99) + new stock.Money(1));
}
