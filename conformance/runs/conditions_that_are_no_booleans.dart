main() {
  print([1 ? 'yes' : 'no', null ? 'yes' : 'no', true ? 'yes' : 'no', 'true' ? 'yes' : 'no']);
  print([!1, !true, !null, 1 && true, true && 1, null || true, false || 'x']);
  if ([]) print('list'); else print('no list');
  while (1) print('never');
  do print('once'); while (2);
  var calls = 0;
  count(value) {
    calls++;
    return value;
  }
  count(false) && count(true);
  count(true) || count(true);
  print(calls);
}
