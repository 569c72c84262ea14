class Settings {
  static final limit = int.parse('many');
}

main() {
  print('reading');
  print(Settings.limit);
}
