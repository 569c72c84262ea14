// Calls within calls: the moves of a tower of 17 discs.
int moves(int discs, int from, int to, int other) =>
    discs == 0 ? 0 : moves(discs - 1, from, other, to) + 1 + moves(discs - 1, other, to, from);

main() {
  print(moves(17, 1, 3, 2));
}
