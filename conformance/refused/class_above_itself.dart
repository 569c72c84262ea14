class Circle extends Shape {}

class Shape extends Circle {}

main() {}
