count(words) {
  var counts = {};
  for (var word in words) {
    counts[word] = counts.containsKey(word) ? counts[word] + 1 : 1;
  }
  return counts;
}

turned(map) {
  var r = {};
  map.forEach((key, value) {
    if (!r.containsKey(value)) r[value] = [];
    r[value].add(key);
  });
  return r;
}

class Graph {
  final edges = new Map();
  link(a, b) {
    for (var pair in [[a, b], [b, a]]) {
      if (edges[pair[0]] == null) edges[pair[0]] = [];
      edges[pair[0]].add(pair[1]);
    }
  }
  path(from, to) {
    var before = {from: null}, queue = [from];
    while (queue.isNotEmpty) {
      var at = queue.removeAt(0);
      if (at == to) {
        var path = [];
        for (var n = to; n != null; n = before[n]) path.insert(0, n);
        return path;
      }
      for (var next in edges[at]) {
        if (before.containsKey(next)) continue;
        before[next] = at;
        queue.add(next);
      }
    }
  }
}

main() {
  var counts = count(['to', 'be', 'or', 'not', 'to', 'be']);
  print(counts);
  print(turned(counts));
  counts['be']++;
  counts['or'] -= 5;
  print([counts['be'], counts['or'], counts['that']]);
  var removed = counts.remove('to');
  counts['to'] = 0;
  print('$removed ${counts.keys} ${counts.values}');
  var nested = {'a': {'b': {'c': 1}}};
  nested['a']['b']['d'] = 2;
  print(nested);
  print({1: 'one', '1': 'text', true: 'yes', null: 'none'}[1]);
  var g = new Graph()..link('a', 'b')..link('b', 'c')..link('c', 'd')..link('a', 'e')..link('e', 'd')..link('x', 'y');
  print(g.path('a', 'd'));
  print(g.path('a', 'y'));
  var total = 0;
  for (var key in counts.keys) total += counts[key];
  print(total);
  for (var key in counts.keys) counts.remove(key);
  print('$counts ${counts.isEmpty}');
}
