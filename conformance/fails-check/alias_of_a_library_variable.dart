typedef int F({int a});

F f = ({int a}) => 1;

main() {
  print(f(a: 2));
  f = ({int b}) => 1;
}
