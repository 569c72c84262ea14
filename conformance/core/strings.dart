f(a) => 'x$a ${a.y}';
main() {}
