main() {
  var least = -170141183460469231731687303715884105727 - 1;
  print(least);
  print(-(least + 1));
  print(least.abs());
}
