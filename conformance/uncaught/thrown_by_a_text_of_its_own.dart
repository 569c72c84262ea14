class Angry {
  toString() {
    throw new UnsupportedError('no text');
  }
}

main() {
  print('before');
  print('${new Angry()}');
}
