def twice(f, x):
    return f(f(x))


def checked(n):
    if n % 3 == 0:
        raise ValueError('third')
    return n


def main():
    sum = 0
    caught = 0
    for i in range(80000):
        def add(n, i=i):
            return n + i % 7
        try:
            sum = sum + twice(add, checked(i))
        except ValueError:
            caught = caught + 1
    print(sum, caught)


main()
