// Objects with fields, methods that are overridden, and calls of super: accounts of a bank, 200,000 bookings.
class Account {
  int balance = 0;
  int bookings = 0;
  int fee(int amount) => 0;
  void book(int amount) {
    bookings = bookings + 1;
    balance = balance + amount - fee(amount);
  }
}

class Current extends Account {
  int fee(int amount) => 1;
}

class Limited extends Current {
  final int most;
  Limited(this.most);
  void book(int amount) {
    super.book(amount > most ? most : amount);
  }
}

main() {
  List<Account> accounts = [new Account(), new Current(), new Limited(60)];
  for (int i = 0; i < 200000; i++) {
    accounts[i % 3].book(i % 90);
  }
  for (Account account in accounts) print('${account.balance} ${account.bookings}');
}
