class Pen {
  var ink = 0, words = [];
  fill(n) { ink += n; return 'filled'; }
  write(word) { words.add(word); return this; }
  get twin => new Pen();
}

main() {
  var pen = new Pen()..fill(3)..write('a').write('b')..ink += 1;
  print('${pen.ink} ${pen.words}');
  print((pen..words[0] = 'c').words);
  print([1]..add(2)..removeAt(0));
  var n = 1;
  print(n..toString());
  print(identical(pen, pen..twin.ink = 9));
  print(pen.ink);
}
