// The parameters of a parameter are an annotation: what stands there is never evaluated, so M uses no super.
class M {
  twice(f([x = super.y]), n) => f(f(n));
}

class A extends Object with M {}

main() {
  print(new A().twice((x) => x + 3, 1));
}
