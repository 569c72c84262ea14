// What an annotation says and what a program does are two things: production reads no annotation, and checked mode tells where one lies.
class Account {
  final String owner;
  int balance;
  Account(this.owner, this.balance);

  void pay(int amount) {
    balance = balance + amount;
  }

  String describe() => owner + ' has ' + balance.toString();
}

int readAmount(String text) {
  // The text is handed on where a number is promised.
  return text;
}

main() {
  var account = new Account('Ada', 10);
  account.pay(5);
  print(account.describe());
  try {
    account.pay(readAmount('7'));
    print('paid');
  } on TypeError catch (e) {
    print('not paid');
  }
  print(account.describe());
}
