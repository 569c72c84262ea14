f() {}

class A {
  m() {}
}

main() {
  var a = new A();
  print([null.hashCode, true.hashCode, false.hashCode]);
  print([1.runtimeType.hashCode, (A).hashCode, a.m.hashCode, f.hashCode]);
  print([0.hashCode, ((1 << 30) - 1).hashCode, (1 << 30).hashCode, ((1 << 30) + 1).hashCode]);
  print([(-1).hashCode, (-(1 << 30)).hashCode, (-(1 << 30) - 1).hashCode]);
  print([170141183460469231731687303715884105727.hashCode, (-1 << 127).hashCode]);
  print([''.hashCode, 'a'.hashCode, 'abc'.hashCode, ('a' + 'bc').hashCode]);
  print(['#Jni_|'.hashCode, '#Jni_}'.hashCode, '#Jni_~'.hashCode]);
  print([new A().hashCode == new A().hashCode, a.hashCode == a.hashCode]);
}
