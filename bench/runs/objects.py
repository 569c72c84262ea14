class Account:
    def __init__(self):
        self.balance = 0
        self.bookings = 0

    def fee(self, amount):
        return 0

    def book(self, amount):
        self.bookings = self.bookings + 1
        self.balance = self.balance + amount - self.fee(amount)


class Current(Account):
    def fee(self, amount):
        return 1


class Limited(Current):
    def __init__(self, most):
        super().__init__()
        self.most = most

    def book(self, amount):
        super().book(self.most if amount > self.most else amount)


def main():
    accounts = [Account(), Current(), Limited(60)]
    for i in range(200000):
        accounts[i % 3].book(i % 90)
    for account in accounts:
        print(account.balance, account.bookings)


main()
