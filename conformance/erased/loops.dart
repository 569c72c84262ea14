f() { for (int i = 0; i < 3; i++) { int j = i; } for (String s in l) g(s); while (b) { bool b = c; } }
