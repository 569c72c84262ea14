// What classes share without one superclass: an order by size, and a log.
abstract class Sized {
  int get size;

  bool operator <(other) => size < other.size;

  bool operator >(other) => size > other.size;
}

class Logged {
  final List<String> lines = [];

  void log(String line) {
    lines.add('${lines.length + 1}: $line');
  }
}

class Box {
  int _content = 0;

  void put(int count) {
    _content += count;
  }

  int get size => _content;
}

class Crate extends Box with Sized, Logged {
  final String name;

  Crate(this.name);

  void put(int count) {
    super.put(count);
    log('$name takes $count');
  }

  noSuchMethod(Invocation call) {
    log('$name can not ${call.memberName}');
  }
}

main() {
  var red = new Crate('red'), blue = new Crate('blue');
  red.put(3);
  red.put(4);
  blue.put(5);
  blue.fly(10);
  print(red > blue);
  print(red < blue);
  for (var crate in [red, blue]) {
    for (var line in crate.lines) print(line);
  }
  print(red is Sized && red is Logged && red is Box);
  print(red.lines.length + blue.lines.length);
}
