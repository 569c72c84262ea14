// Runs programs of eight signs over cells of numbers.
class Machine {
  final String code;
  final Map<int, int> jumps = {};
  final List<int> cells = [0];
  int at = 0, steps = 0;
  final output = new StringBuffer();

  Machine(this.code) {
    var open = [];
    for (var i = 0; i < code.length; i++) {
      if (code[i] == '[') open.add(i);
      if (code[i] == ']') {
        if (open.isEmpty) throw new FormatException('] at $i');
        var from = open.removeLast();
        jumps[from] = i;
        jumps[i] = from;
      }
    }
    if (open.isNotEmpty) throw new FormatException('[ at ${open.removeLast()}');
  }

  String run([String input = '']) {
    var read = 0;
    for (var i = 0; i < code.length; i++) {
      steps++;
      switch (code[i]) {
        case '>':
          if (++at == cells.length) cells.add(0);
          break;
        case '<':
          at--;
          break;
        case '+':
          cells[at] = cells[at] + 1 & 255;
          break;
        case '-':
          cells[at] = cells[at] - 1 & 255;
          break;
        case '.':
          output.write(new String.fromCharCode(cells[at]));
          break;
        case ',':
          cells[at] = read < input.length ? input.codeUnitAt(read++) : 0;
          break;
        case '[':
          if (cells[at] == 0) i = jumps[i];
          break;
        case ']':
          if (cells[at] != 0) i = jumps[i];
      }
    }
    return '$output';
  }
}

main() {
  print(new Machine('++++++++[>++++++++<-]>+.+.+.').run());
  print(new Machine(',[.,]').run('echo'));
  print(new Machine('>,[>,]<[.<]').run('drawer'));
  var machine = new Machine('-[>+<-----]');
  machine.run();
  print([machine.cells, machine.at, machine.steps]);
  for (var code in ['[[]', ']']) {
    try {
      new Machine(code);
    } on FormatException catch (error) {
      print(error.message);
    }
  }
  try {
    new Machine('<+').run();
  } catch (error) {
    print(error);
  }
}
