class Temperature {
  var _kelvin;
  Temperature(this._kelvin);
  get celsius => _kelvin - 273;
  set celsius(c) {
    if (c < -273) throw new RangeError('$c');
    _kelvin = c + 273;
  }
}

class Logged extends Temperature {
  var log = [];
  Logged(kelvin) : super(kelvin);
  get celsius {
    log.add('read');
    return super.celsius;
  }
  set celsius(c) {
    log.add('write $c');
    super.celsius = c;
  }
}

class Fixed extends Temperature {
  Fixed() : super(300);
  set celsius(c) {}
}

class Field extends Temperature {
  var celsius = 1;
  Field() : super(400);
  both() => [celsius, super.celsius];
}

class Report {
  var _text;
  get text {
    if (_text == null) {
      print('writing');
      _text = 'report';
    }
    return _text;
  }
}

main() {
  var t = new Temperature(300);
  t.celsius += 10;
  print([t.celsius, t.celsius++, t.celsius, ++t.celsius, t.celsius = 5]);
  var logged = new Logged(273);
  logged.celsius -= 3;
  logged.celsius++;
  print(logged.celsius);
  try {
    logged.celsius = -300;
  } on RangeError catch (error) {
    print(error.message);
  }
  print(logged.log);
  print(logged._kelvin);
  var fixed = new Fixed();
  fixed.celsius = 1000;
  print(fixed.celsius);
  var field = new Field();
  field.celsius = 7;
  print(field.both());
  try {
    fixed.kelvin = 1;
  } catch (error) {
    print(error);
  }
  var report = new Report();
  print('${report.text} ${report.text}');
}
