var x = const [1];
