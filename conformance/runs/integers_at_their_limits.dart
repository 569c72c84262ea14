attempt(f) {
  try {
    print(f());
  } catch (error) {
    print(error);
  }
}

main() {
  var greatest = 170141183460469231731687303715884105727, least = -greatest - 1;
  print([greatest - 1 + 1, greatest + 0, least + 1 - 1, least - 0]);
  print([(1 << 63) * (1 << 63), (1 << 126) * -2, greatest * 1, greatest * -1]);
  print([-greatest, -(least + 1), ~least, ~greatest]);
  print([greatest ~/ -1, least ~/ 1, least ~/ 2, least ~/ least, greatest ~/ least]);
  print([least % -1, least % greatest, greatest % least, least % 2, greatest % -2]);
  print([least < greatest, greatest < greatest, least <= least, greatest <= least]);
  print([greatest > least, least > least, greatest >= greatest, least >= greatest]);
  print([least.compareTo(greatest), least.compareTo(least), greatest.compareTo(least)]);
  print([greatest & least, greatest | least, greatest ^ greatest, least ^ greatest]);
  print([1 << 126, -1 << 126, -1 << 127, 0 << 1000, 5 << 0]);
  print([greatest >> 126, greatest >> 127, least >> 126, least >> 127, -1 >> 1000, 5 >> 0]);
  print(int.parse('170141183460469231731687303715884105727') == greatest);
  print(int.parse('-170141183460469231731687303715884105728') == least);
  attempt(() => 1 ~/ 0);
  attempt(() => 1 % 0);
  attempt(() => 0 ~/ 0);
  attempt(() => 1 << -1);
  attempt(() => 1 >> -1);
  attempt(() => 1 << least);
  attempt(() => 0 >> greatest);
  attempt(() => 1 + '1');
  attempt(() => 1 < null);
  attempt(() => 1 & true);
  attempt(() => 1.compareTo('1'));
}
