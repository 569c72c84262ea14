var _a;
var _a;

main() {}
