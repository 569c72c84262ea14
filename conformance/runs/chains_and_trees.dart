class Link<T> {
  T value;
  Link<T> next;
  Link(this.value, [this.next]);
}

class Chain<T> extends Iterable<T> {
  Link<T> _first;
  int _count = 0;
  Chain();
  Chain.of(Iterable<T> items) {
    for (var item in items.toList()) push(item);
  }
  void push(T value) {
    _first = new Link<T>(value, _first);
    _count++;
  }
  T pop() {
    if (_first == null) throw new StateError('empty');
    var value = _first.value;
    _first = _first.next;
    _count--;
    return value;
  }
  void turn() {
    var before, at = _first;
    while (at != null) {
      var next = at.next;
      at.next = before;
      before = at;
      at = next;
    }
    _first = before;
  }
  get length => _count;
  get iterator => new ChainIterator<T>(_first);
}

class ChainIterator<T> implements Iterator<T> {
  Link<T> _at, _next;
  ChainIterator(this._next);
  bool moveNext() {
    _at = _next;
    if (_at == null) return false;
    _next = _at.next;
    return true;
  }
  T get current => _at == null ? null : _at.value;
}

class Tree extends Iterable {
  var value, left, right;
  Tree([this.value]);
  void add(x) {
    if (value == null) {
      value = x;
    } else if (x < value) {
      if (left == null) left = new Tree(x); else left.add(x);
    } else if (x > value) {
      if (right == null) right = new Tree(x); else right.add(x);
    }
  }
  get depth {
    var l = left == null ? 0 : left.depth, r = right == null ? 0 : right.depth;
    return 1 + (l > r ? l : r);
  }
  get iterator {
    var all = [];
    walk(tree) {
      if (tree == null) return;
      walk(tree.left);
      all.add(tree.value);
      walk(tree.right);
    }
    walk(this);
    return all.iterator;
  }
}

main() {
  var chain = new Chain.of(['a', 'b', 'c']);
  print(chain.toList());
  chain.turn();
  print(chain.join('>'));
  print([chain.pop(), chain.length, chain.contains('c'), chain.contains('a'), chain.isEmpty]);
  chain.push('z');
  for (var x in chain) {
    if (x == 'b') continue;
    print(x);
  }
  var numbers = new Chain<int>()..push(1)..push(2);
  print([numbers is Chain<num>, numbers is Iterable<int>, numbers.toList() is List<String>]);
  print(numbers.fold(0, (a, b) => a * 10 + b));
  print([numbers.pop(), numbers.pop()]);
  try {
    numbers.pop();
  } on StateError catch (error) {
    print(error.message);
  }
  print(numbers.isEmpty);
  var tree = new Tree();
  for (var x in [5, 2, 8, 1, 9, 2, 3]) tree.add(x);
  print([tree.toList(), tree.depth, tree.length, tree.left.toList()]);
  print(tree.where((x) => x.isOdd).map((x) => x * x));
  print([tree.any((x) => x > 8), tree.every((x) => x > 1), tree.isNotEmpty]);
  print(tree);
}
