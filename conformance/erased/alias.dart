typedef int F<T>(T a, String g(int x), {int b});
