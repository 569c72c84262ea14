main() async { }
