class M = Object with N<int>;
abstract class A<T extends num> extends B<T> with C<T> implements D<int> { T z; }
