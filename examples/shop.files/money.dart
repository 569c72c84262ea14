library money;

// A sum in cents, since there are no fractions.
class Money {
  final int cents;

  Money(this.cents);

  Money operator +(Money other) => new Money(cents + other.cents);

  Money operator *(int times) => new Money(cents * times);

  bool operator ==(other) => other is Money && other.cents == cents;

  int get hashCode => cents;

  String toString() => '${cents ~/ 100}.${_digits(cents % 100)}';
}

String _digits(int n) => n < 10 ? '0$n' : '$n';

Money total(Iterable<Money> sums) => sums.fold(new Money(0), (sum, more) => sum + more);
