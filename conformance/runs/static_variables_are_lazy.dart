told(x) {
  print('told $x');
  return x;
}

var first = told('first');
var second = told('second');

class Shelf {
  static final books = told('books');
  static var empty;
}

var low = high;
var high = low;

main() {
  print('main');
  print(first);
  print(first);
  second = 'written';
  print(second);
  print(Shelf.books);
  print(Shelf.empty);
  try {
    print(low);
  } catch (error) {
    print(error);
  }
  print(low);
  print(high);
}
