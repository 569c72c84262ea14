f() { x; async * { } }
