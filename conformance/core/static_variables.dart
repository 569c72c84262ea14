var s = 1;
int t = 2;
final u = s;
var v;
main() {}
