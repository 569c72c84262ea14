var x = const <int>[1];
