main() {
  var list = [];
  print('growing');
  try {
    while (true) list.add(list.length);
  } catch (error) {
    print('never');
  } finally {
    print('never');
  }
}
