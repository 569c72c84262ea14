main() {
  var year = 2006 + 8;
  String greeting = 'Hello from ECMA-408';
  print(greeting);
  print(year);
}
