part of app;

var ofPart = 'part';
readPart() => [declared, shadowed, handedOn, _private];
