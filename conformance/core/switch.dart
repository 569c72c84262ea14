f(a) {
  l: switch (a) {
    case 1:
      break;
    m: case 2:
      continue m;
    default:
      break l;
  }
  switch (a) {
    case 'x':
  }
}
main() {}
