main() {
  break;
}

f([x = y]) {}
