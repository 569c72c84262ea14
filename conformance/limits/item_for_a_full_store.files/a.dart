main() {
  var list = [1, 2];
  list.add(3);
  try {
    list.add(4);
  } catch (error) {} finally {
    print('not written');
  }
}
