var x = b < c >> d;
