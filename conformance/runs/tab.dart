main() {	print(1); }
