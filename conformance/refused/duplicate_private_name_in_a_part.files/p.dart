part of l;

_f() {}
