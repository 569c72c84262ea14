main() {
  switch ('x') {
    case 1:
      print('a');
  }
}
