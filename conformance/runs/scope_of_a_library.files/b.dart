library b;

var shadowed = 'import', handedOn = 'import', _private = 'import';
_privateToB() => 'import';
readB() => [shadowed, handedOn, _private, _privateToB()];
