part of c;

g(d) => d.x;
