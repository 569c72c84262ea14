drain(kind, n) {
  switch (kind) {
    case 'none':
      break;
    case 'down':
      do {
        n--;
        if (n == 5) break;
        print(n);
      } while (n > 3);
      print('behind the loop');
      break;
    case 'on':
      do {
        n++;
        if (n > 9) continue last;
      } while (n < 8);
      print('on to $n');
      return n;
    last:
    case 'last':
      do print('last $n'); while (n++ < 0);
      break;
    default:
      do {
        switch (n) {
          case 0:
            print('zero');
            break;
          case 1:
            print('one');
            n = 10;
            continue;
          default:
            print('many');
        }
        n--;
      } while (n >= 0 && n < 9);
  }
  return 'end $n';
}

main() {
  print(drain('none', 1));
  print(drain('down', 5));
  print(drain('down', 8));
  print(drain('on', 1));
  print(drain('on', 9));
  print(drain('last', -2));
  print(drain('other', 2));
  print(drain('other', 0));
}
