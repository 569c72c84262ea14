class D { m() => 1; }
