// Accounts that refuse what they can't pay, and who is told of it.
class Shortage implements Exception {
  final Account account;
  final int missing;

  Shortage(this.account, this.missing);

  String toString() => '${account.owner} lacks $missing';
}

abstract class Account {
  final String owner;
  int _balance = 0;

  Account(this.owner);

  int get balance => _balance;

  // How far below nothing the account may go.
  int get credit;

  void deposit(int sum) {
    if (sum <= 0) throw new ArgumentError('nothing to pay in: $sum');
    _balance += sum;
  }

  void withdraw(int sum) {
    var missing = sum - _balance - credit;
    if (missing > 0) throw new Shortage(this, missing);
    _balance -= sum;
  }

  String toString() => '$owner: $balance';
}

class Savings extends Account {
  Savings(String owner, int first) : super(owner) {
    deposit(first);
  }

  int get credit => 0;
}

class Checking extends Account {
  final int credit;

  Checking(String owner, {this.credit: 100}) : super(owner);
}

void transfer(Account from, Account to, int sum) {
  try {
    from.withdraw(sum);
    to.deposit(sum);
    print('paid $sum');
  } on Shortage catch (shortage) {
    print('not paid: $shortage');
    if (shortage.missing > 1000) rethrow;
  } finally {
    print('  $from, $to');
  }
}

main() {
  var ann = new Savings('ann', 50);
  var bob = new Checking('bob', credit: 20);
  transfer(ann, bob, 30);
  transfer(ann, bob, 30);
  transfer(bob, ann, 45);
  transfer(bob, ann, 6);
  try {
    transfer(bob, ann, 5000);
  } catch (error) {
    print('given up: ${error.missing}');
  }
  try {
    ann.deposit(-1);
  } on ArgumentError catch (error) {
    print(error);
  }
}
