main() {
  break;
}

class A extends int {}
