// a

var /* b
*/ x;
