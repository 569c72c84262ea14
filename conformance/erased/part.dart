part of a.b;
int t;
