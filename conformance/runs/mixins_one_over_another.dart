class A {
  m() => 'A';
  n() => 'n of A';
  get kind => 'kind A';
}

class Counts {
  var count = 0;
  m() => 'Counts ${++count}';
}

class Names {
  var _name = 'no name';
  m() => 'Names';
  p() => m();
  get kind => 'kind of $_name';
  set name(n) { _name = n; }
  static make() => 'made by Names';
}

class First extends A with Counts {}

class Second extends First with Names {
  m() => 'Second over ' + super.m();
  q() => super.p();
  up() => super.n();
  get kind => 'second ' + super.kind;
}

class Third extends A with Names, Counts {}

class Twice extends First with Counts {}

abstract class Ordered {
  compareTo(other);
  operator <(other) => compareTo(other) < 0;
  operator >=(other) => !(this < other);
}

class Age extends Object with Ordered implements Comparable {
  final years;
  Age(this.years);
  compareTo(other) => years.compareTo(other.years);
}

class Plain = Object with Names, Counts;

main() {
  print(new First().m());
  var second = new Second();
  print([second.m(), second.p(), second.q(), second.up(), second.count]);
  print(second.kind);
  second.name = 'x';
  print(second.kind);
  var third = new Third();
  print([third.m(), third.p(), third.kind, third.n()]);
  var twice = new Twice();
  print([twice.m(), twice.m(), twice.count]);
  print([second is Counts, second is Names, second is A, second is First, third is First]);
  print([new Age(3) < new Age(4), new Age(3) >= new Age(4), new Age(3) is Ordered, new Age(3) is Comparable]);
  var plain = new Plain()..name = 'plain';
  print([plain.kind, plain.m(), plain.p(), plain.runtimeType]);
  print(Names.make());
  try {
    Plain.make();
  } catch (error) {
    print(error);
  }
}
