class Dog {}

main() {
  var dog = new Dog();
  dog.bark();
}
