main() { String a = 2; int b = 'y'; print(a + 40); print(b); }
