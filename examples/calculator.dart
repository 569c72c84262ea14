// Reads sums, shows them in full brackets, and says what they come to.
abstract class Node {
  int value(Map<String, int> names);
}

class Number extends Node {
  final int number;

  Number(this.number);

  int value(Map<String, int> names) => number;

  String toString() => '$number';
}

class Name extends Node {
  final String name;

  Name(this.name);

  int value(Map<String, int> names) {
    if (!names.containsKey(name)) throw new StateError('what is $name?');
    return names[name];
  }

  String toString() => name;
}

class Operation extends Node {
  final String sign;
  final Node left, right;

  Operation(this.sign, this.left, this.right);

  int value(Map<String, int> names) {
    var a = left.value(names), b = right.value(names);
    switch (sign) {
      case '+':
        return a + b;
      case '-':
        return a - b;
      case '*':
        return a * b;
      default:
        return a ~/ b;
    }
  }

  String toString() => '($left $sign $right)';
}

bool isDigit(int code) => 48 <= code && code <= 57;

bool isLetter(int code) => 97 <= code && code <= 122;

class Reader {
  final String text;
  int at = 0;

  Reader(this.text);

  // The next character behind blanks, or nothing at the end.
  String get next {
    while (at < text.length && text[at] == ' ') at++;
    return at < text.length ? text[at] : '';
  }

  bool takes(String sign) {
    if (next != sign) return false;
    at++;
    return true;
  }

  // Sum = Product {(+ | -) Product}
  Node sum() {
    var node = product();
    while (true) {
      if (takes('+')) {
        node = new Operation('+', node, product());
      } else if (takes('-')) {
        node = new Operation('-', node, product());
      } else {
        return node;
      }
    }
  }

  // Product = Operand {(* | /) Operand}
  Node product() {
    var node = operand();
    while (true) {
      if (takes('*')) {
        node = new Operation('*', node, operand());
      } else if (takes('/')) {
        node = new Operation('/', node, operand());
      } else {
        return node;
      }
    }
  }

  // Operand = digits | letters | ( Sum )
  Node operand() {
    if (takes('(')) {
      var node = sum();
      if (!takes(')')) throw new FormatException('no ) at $at');
      return node;
    }
    var digits = piece(isDigit);
    if (digits != '') return new Number(int.parse(digits));
    var name = piece(isLetter);
    if (name != '') return new Name(name);
    throw new FormatException('nothing to count at $at');
  }

  // The characters from here on that fit.
  String piece(bool fits(int code)) {
    var from = at;
    while (at < text.length && fits(text.codeUnitAt(at))) at++;
    return text.substring(from, at);
  }
}

Node read(String text) {
  var reader = new Reader(text);
  var node = reader.sum();
  if (reader.next != '') throw new FormatException('too much at ${reader.at}');
  return node;
}

void show(String text, Map<String, int> names) {
  try {
    var node = read(text);
    print('$node = ${node.value(names)}');
  } on IntegerDivisionByZeroException {
    print('$text: nothing can be divided by 0');
  } catch (error) {
    print('$text: ${error.message}');
  }
}

main() {
  var names = {'year': 2015, 'two': 2};
  show('1 + 2 * 3', names);
  show('(1 + 2) * 3', names);
  show('10 - 4 - 3', names);
  show('year / 4 * 4', names);
  show('two * (two + two) / 0', names);
  show('three * 3', names);
  show('2 * (3 + 4', names);
  show('7 7', names);
  show('5 + * 2', names);
}
