typedef int Order(a, b);

main() {
  print(1 is Order);
}
