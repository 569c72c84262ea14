main() { throw -5; }
