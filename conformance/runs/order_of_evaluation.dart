var log = [];

told(name, value) {
  log.add(name);
  return value;
}

shown() {
  print(log.join(' '));
  log.clear();
}

class Box {
  var n = 0, list = [0, 0];
  get self => told('self', this);
  set self(value) => told('set', value);
  operator [](i) => told('[$i]', n);
  operator []=(i, v) { told('[$i]=$v', v); n = v; }
  operator +(other) => told('+', n + other);
  m(a, {b, c}) => told('m', a);
}

main() {
  var box = new Box();
  told('receiver', box).m(told('a', 1), c: told('c', 3), b: told('b', 2));
  shown();
  told('receiver', box)[told('index', 1)] = told('value', 5);
  shown();
  told('receiver', box)[told('index', 1)] += told('value', 5);
  shown();
  print(told('receiver', box)[told('index', 1)]++);
  shown();
  print(box.n);
  told('left', box) + told('right', 1);
  shown();
  box.self = box.self;
  shown();
  box.self.self.n = told('value', 7);
  shown();
  var i = 0, list = [10, 20, 30, 40];
  list[i++] = list[i++] + list[i++];
  print('$list $i');
  i = i++ + ++i;
  print(i);
  var x = 1;
  x += (x = 5) + x;
  print(x);
  told('a', false) && told('b', true) || told('c', true) && told('d', false);
  shown();
  told('a', true) ? told('b', 1) : told('c', 2);
  shown();
  [told('x', 1), told('y', 2)];
  ({told('k', 'a'): told('v', 1), told('l', 'b'): told('w', 2)});
  shown();
  print('${told('p', 1)} ${told('q', 2)}');
  shown();
  try {
    missing(told('argument', 1));
  } catch (error) {
    log.add(error);
  }
  shown();
  try {
    box.missing = told('value', 1);
  } catch (error) {
    log.add(error);
  }
  shown();
  try {
    told('function', null)(told('argument', 1));
  } catch (error) {
    log.add(error);
  }
  shown();
}
