def value(line):
    sum = 0
    i = 0
    while i < len(line):
        unit = ord(line[i])
        if unit >= 48 and unit <= 57:
            sum = sum * 10 + unit - 48
        i += 1
    return sum


def main():
    sum = 0
    length = 0
    for i in range(40000):
        line = f'no {i % 1000};'
        sum = sum + value(line)
        longer = line + line
        length = length + len(longer)
    print(sum, length)


main()
