void f({int a: 1, b}) {}
