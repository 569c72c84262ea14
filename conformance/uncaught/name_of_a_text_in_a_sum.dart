main() { var a = 'x'; var b = a; print(1 + b); }
