bitsOf(n) {
  var count = 0;
  for (; n != 0; n &= n - 1) count++;
  return count;
}

hexadecimal(n) {
  if (n < 0) return '-' + hexadecimal(-n);
  var text = '';
  digits: while (true) {
    text = '0123456789abcdef'[n & 15] + text;
    n >>= 4;
    if (n == 0) break digits;
  }
  return text;
}

class Rights {
  static final read = 1 << 0, write = 1 << 1, run = 1 << 2;
  var _bits = 0;
  give(right) { _bits |= right; }
  take(right) { _bits &= ~right; }
  flip(right) { _bits ^= right; }
  has(right) => _bits & right != 0;
  toString() => '$_bits: ${has(read) ? 'r' : '-'}${has(write) ? 'w' : '-'}${has(run) ? 'x' : '-'}';
}

main() {
  print([bitsOf(0), bitsOf(255), bitsOf(1 << 100), bitsOf(0x5555)]);
  print([hexadecimal(48879), hexadecimal(0), hexadecimal(-255), hexadecimal(1 << 64)]);
  var rights = new Rights()..give(Rights.read)..give(Rights.run);
  print(rights);
  print(rights..take(Rights.run)..flip(Rights.write)..flip(Rights.read));
  print([-1 >> 100, -8 >> 1, -7 >> 1, 7 >> 1, 7 >> 3, 1 << 126]);
  print([~-1, ~7, -1 & 255, -256 | 1, 5 ^ -1, -6 & -4, -6 | 3, -1 << 127]);
  print([1 + 1 << 2, 1 << 2 + 1, 5 & 3 == 1, 1 | 2 ^ 3 & 4, 6 ^ 3 | 8, -1 >> 1 + 1]);
  print([0 << 1000, 0 >> 1000, 12345 >> 1000, 3 << 0]);
  var x = 2463534242, mask = 0xFFFFFFFF, found = [];
  for (var i = 0; i < 3; i++) {
    x ^= x << 13 & mask;
    x ^= x >> 17;
    x ^= x << 5 & mask;
    found.add(x);
  }
  print(found);
}
