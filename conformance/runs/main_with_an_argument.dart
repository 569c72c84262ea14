main(words) {
  print('$words ${words is List<String>} ${words is List<int>}');
}
