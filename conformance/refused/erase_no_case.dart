main() { switch (a) { d; } }
