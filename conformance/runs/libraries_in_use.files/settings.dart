part of app;

var level = _base() + 1;
_base() => 41;
_fromPart() => 'the part sees $unit and ${new Sub().name}';
