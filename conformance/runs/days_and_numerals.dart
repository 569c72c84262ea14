isLeap(year) => year % 4 == 0 && (year % 100 != 0 || year % 400 == 0);

class Day {
  static final _before = [0, 31, 59, 90, 120, 151, 181, 212, 243, 273, 304, 334];
  static final names = ['Monday', 'Tuesday', 'Wednesday', 'Thursday', 'Friday', 'Saturday', 'Sunday'];
  final int number;
  Day._(this.number);
  Day(int year, int month, int day) : this._(_daysBefore(year) + _before[month - 1] + (month > 2 && isLeap(year) ? 1 : 0) + day - 1);
  static int _daysBefore(int year) {
    var y = year - 1;
    return y * 365 + y ~/ 4 - y ~/ 100 + y ~/ 400;
  }
  String get name => names[number % 7];
  int operator -(other) => number - other.number;
  Day operator +(int days) => new Day._(number + days);
  bool operator ==(other) => other is Day && number == other.number;
}

roman(int n) {
  if (n <= 0) throw new RangeError('$n has no numeral');
  var values = [1000, 900, 500, 400, 100, 90, 50, 40, 10, 9, 5, 4, 1];
  var signs = ['M', 'CM', 'D', 'CD', 'C', 'XC', 'L', 'XL', 'X', 'IX', 'V', 'IV', 'I'];
  var text = '';
  for (var i = 0; i < values.length; i++) {
    for (; n >= values[i]; n -= values[i]) text += signs[i];
  }
  return text;
}

fromRoman(text) {
  var values = {'I': 1, 'V': 5, 'X': 10, 'L': 50, 'C': 100, 'D': 500, 'M': 1000}, sum = 0;
  for (var i = 0; i < text.length; i++) {
    var value = values[text[i]], behind = i + 1 < text.length ? values[text[i + 1]] : 0;
    sum += value < behind ? -value : value;
  }
  return sum;
}

inWords(n) {
  var small = ['zero', 'one', 'two', 'three', 'four', 'five', 'six', 'seven', 'eight', 'nine', 'ten', 'eleven', 'twelve'];
  var tens = {2: 'twenty', 3: 'thirty', 4: 'forty'};
  if (n < 0) return 'minus ${inWords(-n)}';
  if (n < small.length) return small[n];
  if (n < 20) return n == 13 ? 'thirteen' : n == 15 ? 'fifteen' : n == 18 ? 'eighteen' : small[n - 10] + 'teen';
  var rest = n % 10;
  return tens[n ~/ 10] + (rest == 0 ? '' : '-${small[rest]}');
}

main() {
  print([1900, 2000, 2015, 2016].where(isLeap));
  print([new Day(2015, 12, 1).name, new Day(2000, 1, 1).name, new Day(1970, 1, 1).name]);
  print(new Day(2016, 3, 1) - new Day(2016, 2, 1));
  print(new Day(2015, 12, 25) - new Day(2015, 12, 1));
  print(new Day(2015, 2, 28) + 1 == new Day(2015, 3, 1));
  print((new Day(2015, 12, 1) + -1).name);
  print([1, 4, 9, 14, 40, 90, 400, 1994, 2015, 3999].map(roman).join(' '));
  var wrong = 0;
  for (var n = 1; n < 100; n++) if (fromRoman(roman(n)) != n) wrong++;
  print(wrong);
  print([0, 7, 13, 16, 20, 42, -35].map(inWords));
  try {
    roman(0);
  } on RangeError catch (error) {
    print(error);
  }
  try {
    new Day(2015, 13, 1);
  } on RangeError catch (error) {
    print(error);
  }
}
