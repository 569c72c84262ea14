int x = 1; String get(int k) => 'a';
