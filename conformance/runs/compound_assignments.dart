class Box {
  var n = 1, list = [1, 2];
}

main() {
  var box = new Box();
  at(i) {
    print('at $i');
    return i;
  }
  the() {
    print('the box');
    return box;
  }
  the().n += 5;
  the().list[at(1)] *= 10;
  print('${box.n} ${box.list}');
  print(the().n++);
  print(--box.list[at(0)]);
  print('${box.n} ${box.list}');
  var n = 7;
  n %= 4;
  n <<= 3;
  n >>= 1;
  n |= 1;
  n &= 12;
  n ^= 5;
  n ~/= 2;
  n -= 1;
  print(n);
  print(n = n += 2);
}
