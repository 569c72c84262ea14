f() sync* { }
