main() { var half = 85070591730234615865843651857942052863; var a = half + half; print(a); print(a + 1); print(a + 2); }
