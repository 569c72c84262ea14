name(n) {
  switch (n) {
    case 1:
      return 'one';
    case 2:
    case 3:
      print('two or three');
      break;
    case 4:
      print('four');
      continue five;
    five:
    case 5:
      print('five');
      break;
    default:
      print('none');
  }
  return 'end';
}

main() {
  for (var n = 1; n <= 6; n++) print(name(n));
  switch ('b' + 'c') {
    case 'a':
      print('a');
      break;
    case "bc":
      print('found');
  }
  switch (1) {
    case 2:
      print('no');
  }
  try {
    switch (1) {
      case 1:
        print('falls');
      case 2:
        print('not here');
    }
  } catch (error) {
    print(error);
  }
}
