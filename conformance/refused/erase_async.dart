f() async { }
