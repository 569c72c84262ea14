class C { static int n = 1; final int k; C(int this.k); int operator +(int o) => k + o; }
