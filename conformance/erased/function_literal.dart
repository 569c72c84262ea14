var g = (int a, [String b = 'x']) => a;
