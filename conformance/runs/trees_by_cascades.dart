class Tag {
  final name, children = [], attributes = {};
  var text = '';
  Tag(this.name);
  add(child) {
    children.add(child);
  }
  get last => children[children.length - 1];
  toString() {
    var shown = name;
    attributes.forEach((key, value) => shown += ' $key=$value');
    return '<$shown>$text${children.join()}</$name>';
  }
}

main() {
  var list = new Tag('ul')
    ..attributes['class'] = 'menu'
    ..add(new Tag('li')..text = 'one')
    ..add(new Tag('li')
      ..text = 'two'
      ..children.add('!'))
    ..children[0].text += ' more'
    ..last.add(new Tag('b')..add(1 + 1)..add([3]..add(4)));
  print(list);
  print((list..attributes.remove('class')).children.length);
  var made = 0;
  make() {
    made++;
    return new Tag('i');
  }
  make()
    ..text = 'a'
    ..text += 'b'
    ..add(made);
  print(made);
  var n = null;
  try {
    n..text = 'never';
  } catch (error) {
    print(error);
  }
  var pair = [1, 2]..[0] = 'first'..[1] += 40;
  print(pair);
  var same = pair..add(3);
  print(identical(same, pair));
  print(true ? ([1]..add(2)) : null);
}
