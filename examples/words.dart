// Counts the words of a text, and shows them, the most frequent first.
bool isLetter(int code) => code >= 97 && code <= 122 || code >= 65 && code <= 90;

// The small letter of a letter of ASCII.
String small(int code) => new String.fromCharCode(code < 97 ? code + 32 : code);

List<String> words(String text) {
  var found = new List<String>();
  var word = new StringBuffer();
  // A blank behind the text ends its last word.
  for (var i = 0; i <= text.length; i++) {
    var code = i < text.length ? text.codeUnitAt(i) : 32;
    if (isLetter(code)) {
      word.write(small(code));
    } else if ('$word' != '') {
      found.add('$word');
      word = new StringBuffer();
    }
  }
  return found;
}

Map<String, int> counted(List<String> words) {
  var counts = new Map<String, int>();
  for (var word in words) counts[word] = counts.containsKey(word) ? counts[word] + 1 : 1;
  return counts;
}

// The words, those of greater counts first, and of equal counts as they came.
List<String> ranked(Map<String, int> counts) {
  var ranks = new List<String>();
  counts.forEach((word, count) {
    var at = 0;
    while (at < ranks.length && counts[ranks[at]] >= count) at++;
    ranks.insert(at, word);
  });
  return ranks;
}

main() {
  var counts = counted(words('The sea and the sky, the sky and the sea: and who can tell them apart?'));
  for (var word in ranked(counts)) {
    var line = new StringBuffer();
    line..write(word)..write(' ');
    for (var i = 0; i < counts[word]; i++) line.write('*');
    print(line);
  }
  print('${counts.length} words');
}
