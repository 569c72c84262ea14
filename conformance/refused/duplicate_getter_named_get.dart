get get => 1;
var get;

main() {}
