class Same {
  operator ==(other) => true;
}

main() {
  var same = new Same();
  print(same == 1);
  print(same == null);
  print(null == same);
  print(null == null);
  print(1 == same);
  print('a' + 'b' == 'ab');
  print(identical('a' + 'b', 'ab'));
  print([1] == [1]);
  print(identical(same, same));
  print(identical(same, new Same()));
}
