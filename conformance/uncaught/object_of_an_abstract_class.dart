abstract class A {}

main() {
  new A();
}
