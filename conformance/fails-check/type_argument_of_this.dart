class Tagged<T> {
  T tag;
  Tagged(this.tag);
  void tell(T other) {
    print('$tag $other');
  }
}

main() {
  Tagged one = new Tagged<int>(1);
  one.tell(2);
  one.tell('a');
}
