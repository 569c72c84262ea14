typedef int A(A x);
typedef int B(A x);

main() {
  B b = (x) => 1;
  print(b(2));
  B c = 3;
}
