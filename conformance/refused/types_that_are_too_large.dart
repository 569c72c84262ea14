class C0<T> {}
class C1<T> extends C0<Map<T, T>> {}
class C2<T> extends C1<Map<T, T>> {}
class C3<T> extends C2<Map<T, T>> {}
class C4<T> extends C3<Map<T, T>> {}
class C5<T> extends C4<Map<T, T>> {}
class C6<T> extends C5<Map<T, T>> {}
class C7<T> extends C6<Map<T, T>> {}
class C8<T> extends C7<Map<T, T>> {}

main() {}
