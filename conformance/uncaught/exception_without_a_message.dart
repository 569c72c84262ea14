class Stopped extends Exception {}

stop() => throw new Stopped();

main() {
  [1].forEach((x) => stop());
}
