#!/usr/bin/env python3
"""Times subtyping on tables of classes that make a plain search explode, against such a search in Python.

usage: bench/types.py [--runs N] [--tests PROGRAM]

The ladder has 20 diamonds: two classes over the one below, and one over both. The tower compares C<int>, where C<T>
extends D<P<C<T>, C<T>>>, with 20 nested D<P<.., ..>>. The peer follows every way up and compares every argument again;
it is timed on smaller ones, since it doubles with each step. Ours are two tests of the crate type_tests, as `rt test` in
its folder builds them (--tests names another such program). Each figure is the best of N runs, ours net of a run that
only lists the tests. Ratios hold within one run alone.
"""
import argparse
import os
import subprocess
import sys
import time

TESTS = os.path.join(os.path.dirname(os.path.abspath(__file__)), '..', 'crates', 'type_tests', 'out', 'type_tests_tests')


def below(supers, t, s):
    """Whether class type t is below s, by going up from t and comparing arguments, remembering nothing."""
    if t[0] == s[0]:
        return all(below(supers, a, b) for a, b in zip(t[1:], s[1:]))
    return any(below(supers, put_in(u, t[1:]), s) for u in supers.get(t[0], []))


def put_in(u, args):
    return args[0] if u == 'T' else (u[0],) + tuple(put_in(a, args) for a in u[1:])


def ladder(n):
    supers = {}
    for i in range(n):
        supers[f'a{i}'] = supers[f'b{i}'] = [(f't{i}',)]
        supers[f't{i + 1}'] = [(f'a{i}',), (f'b{i}',)]
    return lambda: below(supers, (f't{n}',), ('String',))


def tower(n):
    supers = {'C': [('D', ('P', ('C', 'T'), ('C', 'T')))]}
    s = ('C', ('int',))
    for _ in range(n):
        s = ('D', ('P', s, s))
    return lambda: below(supers, ('C', ('int',)), s)


def seconds(work, runs):
    found = []
    for _ in range(runs):
        begin = time.perf_counter()
        work()
        found.append(time.perf_counter() - begin)
    return min(found)


def run(program, word):
    if subprocess.run([program, word], stdout=subprocess.DEVNULL).returncode:
        sys.exit(f'{program} {word} failed')


def main():
    options = argparse.ArgumentParser()
    options.add_argument('--runs', type=int, default=7)
    options.add_argument('--tests', default=TESTS)
    given = options.parse_args()
    if not os.path.exists(given.tests):
        sys.exit(f'{given.tests} is missing: run rt test in crates/type_tests')
    start = seconds(lambda: run(given.tests, '--list'), given.runs)
    print('| table | plain search, 12 steps | 14 | 16 | dart_type, 20 steps |')
    print('|---|---|---|---|---|')
    for name, peer, ours in (('ladder', ladder, 'ladder_of_diamonds'), ('tower', tower, 'tower_of_pairs')):
        plain = [seconds(peer(n), given.runs) for n in (12, 14, 16)]
        net = max(seconds(lambda: run(given.tests, f'tests::{ours}'), given.runs) - start, 0)
        print(f'| {name} | 1 | {plain[1] / plain[0]:.1f} | {plain[2] / plain[0]:.1f} | {net / plain[0]:.2f} |', flush=True)


if __name__ == '__main__':
    main()
