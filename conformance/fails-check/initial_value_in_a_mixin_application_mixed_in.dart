class Held<T> {
  T held = 7;
}

class Same<T> = Object with Held<T>;

class A extends Object with Same<int> {}

class B extends Object with Same<String> {}

main() {
  print(new A().held);
  print(new B().held);
}
