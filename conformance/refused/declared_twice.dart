main() { var a = 1; int a = 2; print(a); }
