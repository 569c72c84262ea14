main() {
  switch (1) {
    case 1:
      var a;
      var a;
  }
}
