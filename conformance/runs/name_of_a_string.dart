main() { var a = 'x'; dynamic b = a; int c = b; print(c); print(a); }
