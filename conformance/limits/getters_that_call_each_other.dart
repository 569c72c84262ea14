class Well {
  get depth => 1 + deeper;
  get deeper => depth;
}

main() {
  print('down');
  try {
    print(new Well().depth);
  } finally {
    print('never');
  }
}
