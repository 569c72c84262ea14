def length(n):
    turns = 0
    while n != 1:
        if n % 2 == 0:
            n = n // 2
        else:
            n = 3 * n + 1
        turns = turns + 1
    return turns


def main():
    longest = 0
    sum = 0
    for i in range(1, 12000):
        turns = length(i)
        sum = sum + turns
        if turns > longest:
            longest = turns
    print(longest, sum)


main()
