var a;
var a;
