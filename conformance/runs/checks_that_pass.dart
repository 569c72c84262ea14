typedef int Op(int a, int b);

int apply(Op op, int a, num b) => op(a, b);

main() {
  int none = null;
  List<num> l = new List<int>();
  l.add(2);
  bool more = l.length > 0;
  if (more) print(apply((a, b) => a * b, 3, l[0]));
  print(none);
}
