main({a, b}) { print('$a $b'); }
