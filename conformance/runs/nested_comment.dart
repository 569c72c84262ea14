main() { /* a /* b */ */ print(1/**/+/* c */2); }
