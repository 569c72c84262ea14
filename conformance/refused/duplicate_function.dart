main() {} main() {}
