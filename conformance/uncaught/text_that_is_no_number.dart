read(text) =>
    int.parse(text);

main() {
  read('seven');
}
