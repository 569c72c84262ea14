main() { x = (q) => y is dynamic < c; }
