#!/usr/bin/env dart
main() { print(1); }
