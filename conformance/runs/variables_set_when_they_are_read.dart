var made = 0;

class Config {
  static final Config shared = new Config._();
  final number;
  Config._() : number = ++made {
    print('config $number');
  }
  factory Config() => shared;
}

final squares = (() {
  print('squares');
  var r = [];
  for (var i = 0; i < 5; i++) r.add(i * i);
  return r;
})();

final total = squares.fold(0, (a, b) => a + b) + Config.shared.number;

class Broken {
  static var value = fail();
  static fail() {
    print('trying');
    throw 'broken';
  }
}

class Numbers {
  static var next = 10;
  static var taken = next++;
  final mine = next++;
}

var never = (() => print('never'))();
var known = 1, twice = known * 2, thrice = known + twice;

main() {
  print('start');
  print(total);
  print(total);
  print(identical(new Config(), new Config()));
  print(made);
  for (var i = 0; i < 2; i++) {
    try {
      print(Broken.value);
    } catch (e) {
      print(e);
    }
  }
  Broken.value = 5;
  print(Broken.value);
  print([new Numbers().mine, Numbers.taken, new Numbers().mine, Numbers.taken, Numbers.next]);
  known = 10;
  print(thrice);
  known = 100;
  print([twice, thrice]);
  never = 'written before it was read';
  print(never);
}
