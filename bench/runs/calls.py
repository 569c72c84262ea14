def moves(discs, start, to, other):
    return 0 if discs == 0 else moves(discs - 1, start, other, to) + 1 + moves(discs - 1, other, to, start)


def main():
    print(moves(17, 1, 3, 2))


main()
