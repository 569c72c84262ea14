var x = (a) => b..c();
var y = (a) => b == c == d;
