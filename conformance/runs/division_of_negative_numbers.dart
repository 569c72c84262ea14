gcd(a, b) => b == 0 ? a.abs() : gcd(b, a % b);

rest(a, b) => a - a ~/ b * b;

digitSum(n) {
  var sum = 0;
  for (n = n.abs(); n > 0; n ~/= 10) sum += n % 10;
  return sum;
}

main() {
  for (var a in [17, -17]) {
    for (var b in [5, -5]) print('$a $b: ${a ~/ b} ${rest(a, b)} ${a % b}');
  }
  print([gcd(84, 36), gcd(-84, 36), gcd(0, -5), gcd(0, 0)]);
  print(digitSum(-90817));
  print([-7 ~/ 2, -7 % 2, -(7 % 4), 7 - -7, -7.abs(), (-7).abs()]);
  print([(-3).isOdd, (-4).isEven, (-3).isNegative, 0.isNegative, (-3).compareTo(2)]);
  print([int.parse('-12') * -3, 0 ~/ -5, 0 % -5, -1 ~/ 2, 1 ~/ -2]);
  var great = 170141183460469231731687303715884105727, least = -great - 1;
  print(great ~/ 10);
  print(great % 1000000007);
  print(least);
  print(least ~/ 2);
  print(least % 10);
  print(least % least);
  print(great % least);
  print([1 < 2, 2 <= 2, -1 > -2, -1 >= 0, least < great, 3 == 3, 3 != 3]);
}
