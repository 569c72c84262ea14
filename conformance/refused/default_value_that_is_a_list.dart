total(items, [counted = []]) => items.length + counted.length;

main() {}
