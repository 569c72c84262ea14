// The game of life on a small board without edges: what leaves it on one side comes in on the other.
class Board {
  final int width, height;
  final List<List<bool>> cells = [];

  Board(this.width, this.height) {
    for (var y = 0; y < height; y++) cells.add(new List<bool>(width));
  }

  factory Board.of(List<String> rows) {
    var board = new Board(rows[0].length, rows.length);
    board.fill((x, y) => rows[y][x] == '#');
    return board;
  }

  void fill(bool alive(int x, int y)) {
    for (var y = 0; y < height; y++) {
      for (var x = 0; x < width; x++) cells[y][x] = alive(x, y);
    }
  }

  // A remainder is never below 0, so -1 is the last row or column.
  bool at(int x, int y) => cells[y % height][x % width];

  int neighbours(int x, int y) {
    var count = 0;
    for (var down = -1; down <= 1; down++) {
      for (var right = -1; right <= 1; right++) {
        if ((down != 0 || right != 0) && at(x + right, y + down)) count++;
      }
    }
    return count;
  }

  Board next() {
    var board = new Board(width, height);
    board.fill((x, y) {
      var around = neighbours(x, y);
      return around == 3 || around == 2 && at(x, y);
    });
    return board;
  }

  String toString() => cells.map((row) => row.map((alive) => alive ? '#' : '.').join()).join('\n');
}

main() {
  var board = new Board.of(['.#...', '..#..', '###..', '.....', '.....']);
  for (var generation = 0; generation <= 4; generation++) {
    print('generation $generation');
    print(board);
    board = board.next();
  }
}
