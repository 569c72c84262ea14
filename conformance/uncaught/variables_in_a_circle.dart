var a = b;
var b = a;

main() {
  print(a);
}
