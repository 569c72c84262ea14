part of l;

var x = 'of the part';
