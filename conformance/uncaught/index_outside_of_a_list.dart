last(list) {
  return list[list.length];
}

main() {
  print(last([1, 2]));
}
