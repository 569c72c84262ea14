enum E { a, b, } const int n = 1; class C { const C(int k); } var c = const C(1);
