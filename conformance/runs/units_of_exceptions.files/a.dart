class A {
  noSuchMethod(i) => 1;
}

main() {
  try { 1 as String; } catch (e) {}
  try { 1 as String; } catch (e, s) {}
  try { 1 ~/ 0; } catch (e) {}
  try { unknown; } catch (e) {}
  try { 'a'.substring(2); } catch (e) {}
  new A().foo(1, 2);
  print('all');
}
