main() {
  var x =
      'a' as int;
}
