library app;

import 'shapes.dart' as shapes show Shape, area, unit, limit, make;
import 'shapes.dart' hide Shape, area;
import 'texts.dart' as texts;
import 'texts.dart' as few hide shout;
import 'dart:core' as core;
import 'dart:core' hide Exception;
part 'settings.dart';

class Exception {
  toString() => 'an exception of its own';
}

class Sub extends shapes.Shape {
  Sub() : super('sub');
  _secret() => 'the secret of app';
  both() => [_secret(), open()];
}

attempt(what, f) {
  try {
    print('$what: ${f()}');
  } catch (error) {
    print('$what: $error');
  }
}

main() {
  attempt('constructor', () => new shapes.Shape('dot').name);
  attempt('named constructor', () => new shapes.Shape.square().name);
  attempt('static', () => shapes.Shape.count());
  attempt('static variable', () => ++shapes.Shape.made);
  attempt('function', () => shapes.area(2, 3));
  attempt('variable', () => shapes.unit = 'inch');
  attempt('without a prefix', () => unit);
  attempt('final', () => shapes.limit = 1);
  attempt('hidden', () => area(1, 1));
  attempt('hidden class', () => new Shape('a'));
  attempt('not shown', () => shapes.describe());
  attempt('not hidden', () => describe());
  attempt('two under one prefix', () => [texts.shout('a'), texts.whisper('B')]);
  attempt('hidden behind a prefix', () => few.shout('a'));
  attempt('exported', () => texts.describe());
  attempt('not exported', () => texts.area(1, 2));
  attempt('taken off', () => ['x', 'y'].map(texts.shout));
  attempt('private', () => shapes._hidden());
  attempt('private member', () => new shapes.Shape('a')._name);
  attempt('private method', () => new Sub().both());
  attempt('private class', () => shapes.make().shown);
  attempt('private field', () => shapes.make()._kept);
  attempt('type', () => new Sub() is shapes.Shape);
  attempt('unknown type', () => new shapes.Circle());
  attempt('of its own', () => new Exception());
  attempt('of the library', () => new core.Exception('a core one'));
  attempt('part', () => '${_fromPart()} $level');
  attempt('part again', () => level += 1);
}
