List<List<int>> f(x) => new Map<String, List<List<int>>>();
var y = a >> b;
var z = a >= b;
main() { a >>= b; }
