f() { int x; x = a ? b : c; x ~/= 2; x <<= 1; y.z[0] |= 3; }
