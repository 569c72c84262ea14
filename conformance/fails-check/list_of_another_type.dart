class Tagged<T> {
  T tag;
  Tagged(this.tag);
  void tell(T other) {
    print('$tag $other');
  }
}

int total(List<int> numbers) {
  int sum = 0;
  for (int n in numbers) sum += n;
  return sum;
}

main() {
  print(total(<int>[1, 2]));
  print(total([3, 4]));
  print(total(new List()));
  Tagged<int> one = new Tagged<int>(1);
  one.tell(2);
  one.tell(null);
  Tagged<int> any = new Tagged('b');
  any.tell('c');
  print(total(<String>[]));
}
