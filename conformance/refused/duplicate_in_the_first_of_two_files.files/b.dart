var b, b;
