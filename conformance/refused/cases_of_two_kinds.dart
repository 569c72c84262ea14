main() {
  switch (1) {
    case 1: break;
    case 'a': break;
  }
}
