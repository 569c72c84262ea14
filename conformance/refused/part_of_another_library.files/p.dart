part of m;
