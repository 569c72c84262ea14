f() { return this; }
