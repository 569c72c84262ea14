var x = 1; }
