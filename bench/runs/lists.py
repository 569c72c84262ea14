def main():
    items = []
    for i in range(200000):
        items.append(i * 13 % 997)
    i = 1
    while i < len(items):
        items[i] = items[i] + items[i - 1] % 1000
        i += 1
    even = 0
    greatest = 0
    for item in items:
        if item % 2 == 0:
            even += 1
        if item > greatest:
            greatest = item
    print(len(items), even, greatest)


main()
