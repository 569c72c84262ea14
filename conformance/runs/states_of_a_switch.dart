// Takes a text apart into words and signs.
tokens(String text) {
  var found = [], word = '', at = 0;
  text += ' ';
  scan: while (at < text.length) {
    var c = text[at++];
    switch (c) {
      case ' ':
        if (word == '') continue scan;
        continue end;
      case '0':
      case '1':
        word += '#$c';
        continue;
      end:
      case ';':
      case ',':
        if (word != '') found.add(word);
        if (c != ' ') found.add(c);
        word = '';
        break;
      default:
        word += c;
    }
  }
  return found.join('|');
}

collatz(n) {
  var steps = 0;
  switch (n % 2) {
    even: case 0:
      n ~/= 2;
      steps++;
      if (n == 1) break;
      if (n % 2 == 0) continue even;
      continue odd;
    odd: case 1:
      if (n == 1) break;
      n = 3 * n + 1;
      steps++;
      continue even;
  }
  return steps;
}

grade(points) {
  switch (points ~/ 10) {
    case 10:
    case 9:
      return 'very good';
    case 8:
      return 'good';
    default:
      if (points < 0) break;
      return 'enough';
  }
  return 'none';
}

nested(a, b) {
  switch (a) {
    case 1:
      switch (b) {
        case 1:
          return 'both';
        case 2:
          break;
        default:
          continue two;
      }
      return 'one alone';
    two:
    case 2:
      return 'two';
  }
  return 'neither';
}

main() {
  print(tokens('ab 10; c,,d'));
  print([collatz(6), collatz(1), collatz(27)]);
  print([grade(100), grade(95), grade(80), grade(12), grade(-20)]);
  print([nested(1, 1), nested(1, 2), nested(1, 3), nested(2, 0), nested(3, 0)]);
  switch (null) {
    default:
      print('null has the default');
  }
  switch ('x') {}
  var made = [];
  for (var i = 0; i < 3; i++) {
    switch (i) {
      case 0:
        var kept = 'zero';
        made.add(() => kept);
        break;
      case 1:
        var kept = 'one';
        made.add(() => '$kept of $i');
        continue;
      default:
        made.add(() => i);
    }
  }
  print(made.map((f) => f()));
}
