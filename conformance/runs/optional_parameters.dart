byPlace(a, [b, c = 3]) => '$a $b $c';
byName(a, {b, c: -3}) => '$a $b $c';

main() {
  print(byPlace(1));
  print(byPlace(1, 2));
  print(byPlace(1, 2, null));
  print(byName(1));
  print(byName(1, c: 2, b: 4));
  for (var f in [() => byPlace(), () => byPlace(1, 2, 3, 4), () => byName(1, 2), () => byName(1, d: 2)]) {
    try {
      f();
    } catch (error) {
      print(error);
    }
  }
}
