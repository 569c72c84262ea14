typedef int A(A x);
typedef C B();
typedef B C();

main() {
  A a = 1;
  print(a);
  B b = 2;
  print(b);
  int c = 'c';
}
