main() {
  var text = 'ab';
  while (true) text = text + text;
}
