class A { factory A() = B<int>; external factory A.c(int x); factory A.d(int x) { return x; } }
