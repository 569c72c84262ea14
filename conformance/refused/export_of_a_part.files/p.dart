part of x;
