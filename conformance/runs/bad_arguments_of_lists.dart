attempt(what, f) {
  try {
    print('$what: ${f()}');
  } catch (error) {
    print('$what: $error');
  }
}

main() {
  var list = [1, 2, 3], fixed = new List(2);
  attempt('last', () => list[list.length - 1]);
  attempt('behind the last', () => list[3]);
  attempt('before the first', () => list[-1]);
  attempt('written behind', () => list[3] = 4);
  attempt('at a string', () => list['0']);
  attempt('inserted at the end', () => list.insert(3, 4));
  attempt('inserted too far', () => list.insert(5, 6));
  attempt('taken out too far', () => list.removeAt(4));
  attempt('taken out before', () => list.removeAt(-1));
  attempt('last of none', () => [].removeLast());
  attempt('length below 0', () => list.length = -1);
  attempt('no length', () => list.length = 'two');
  attempt('fixed, written', () => fixed[1] = 'b');
  attempt('fixed, written behind', () => fixed[2] = 'c');
  attempt('fixed, added', () => fixed.add('c'));
  attempt('fixed, taken out', () => fixed.removeAt(0));
  attempt('fixed, inserted too far', () => fixed.insert(9, 'c'));
  attempt('fixed, cleared', () => fixed.clear());
  attempt('none to add', () => list.addAll(null));
  attempt('no function', () => list.map(5));
  attempt('function of two', () => list.map((a, b) => a));
  attempt('no fold', () => list.fold(0));
  attempt('joined', () => list.join(0));
  attempt('sorted', () => list.sort());
  print('$list $fixed');
}
