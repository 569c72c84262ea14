f() async* { }
