main() {
  var list = [1, 2];
  list.add(3);
  try {
    int;
  } catch (error) {} finally {
    print('not written');
  }
}
