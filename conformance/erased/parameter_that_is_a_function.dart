f(g(String s), [int n = 1]) => g('a');
