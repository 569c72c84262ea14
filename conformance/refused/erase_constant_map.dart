var x = const {};
