class P {
  const P();
}

main() { print(const P()); }
