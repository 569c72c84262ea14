class C { static void set x(int v) {} }
void set y(String v) {}
