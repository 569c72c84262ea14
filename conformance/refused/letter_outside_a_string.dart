main() { é; }
