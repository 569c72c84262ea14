main() { var get = 1; print(get); }
