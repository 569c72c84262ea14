@d class C<A extends B> { f(x) => new List<int>() is int; }
