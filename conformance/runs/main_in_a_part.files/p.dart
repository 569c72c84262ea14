part of l;

main() { print('in a part'); }
