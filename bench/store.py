#!/usr/bin/env python3
"""Times pushes to a list, reads of a field and sums of 128 bits against the same loops in C, and weighs full stores.

usage: bench/store.py [--runs N] [--dart PROGRAM] [--weigh]

Each loop is a program of 1,900,000 turns, which `dart run` takes through its machine, natives and store; the first has nothing in
its turns. The peer is bench/store.c, by gcc -O2, with the same values of 24 bytes, a list that doubles, and the same checks of
index, limit and overflow; it does the loop 50 times. Figures are processor time, the best of N runs, net of a run without turns.
Ratios hold within one run alone.

With --weigh it takes the peak memory of programs that fill a store: what 2,000,000 units take beyond 1,000,000.
"""
import argparse
import os
import resource
import subprocess
import sys
import tempfile

HERE = os.path.dirname(os.path.abspath(__file__))
DART = os.path.join(HERE, '..', 'dart')
TURNS, TIMES, UNITS = 1_900_000, 50, 2_000_000
LOOPS = (
    ('empty', 'main() {{ for (var i = 0; i < {n}; i++) {{}} }}'),
    ('pushes', 'main() {{ var l = []; for (var i = 0; i < {n}; i++) {{ l.add(i); }} }}'),
    ('field_reads', 'class A {{ var f = 1; }} main() {{ var a = new A(); for (var i = 0; i < {n}; i++) {{ a.f; }} }}'),
    ('sums', 'main() {{ var t = 0, step = 18446744073709551617; for (var i = 0; i < {n}; i++) {{ t = t + step; }} }}'),
)
# What is made without an end, and by which program.
MADE = (
    ('items of one list', 'main() { var l = []; while (true) l.add(1); }'),
    ('objects with three fields', 'class A { var a, b, c; } main() { while (true) new A(); }'),
    ('lists of three items', 'main() { while (true) [1, 2, 3]; }'),
    ('objects without fields', 'class A {} main() { while (true) new A(); }'),
    ('methods taken off an object', 'class A { m() {} } main() { var a = new A(); while (true) a.m; }'),
    ('functions that take a variable along', 'main() { for (var i = 0; true; i++) () => i; }'),
    ('strings of 14 characters', "main() { var s = 'abcdefg'; while (true) s + s; }"),
    ('lists of no items', 'main() { while (true) []; }'),
)
# The status of a run that came to a limit.
LIMIT = 6


def taken(words, status, runs):
    """The processor time of the quickest of some runs, and the peak memory in bytes of the last."""
    found = []
    for _ in range(runs):
        run = subprocess.Popen(words, stdout=subprocess.DEVNULL)
        _, ended, used = os.wait4(run.pid, 0)
        if os.waitstatus_to_exitcode(ended) != status:
            sys.exit(f'{words} failed')
        found.append((used.ru_utime + used.ru_stime, used.ru_maxrss * 1024))
    return min(found)[0], found[-1][1]


def run_dart(dart, text, status, units, runs):
    with tempfile.NamedTemporaryFile('w', suffix='.dart') as file:
        file.write(text)
        file.flush()
        return taken([dart, 'run', '--steps', '1000000000', '--units', str(units), file.name], status, runs)


def compare(dart, runs):
    with tempfile.TemporaryDirectory() as folder:
        peer = os.path.join(folder, 'store')
        subprocess.run(['gcc', '-O2', '-o', peer, os.path.join(HERE, 'store.c')], check=True)
        print('| in a turn | million turns a second, dart run | C | time, C = 1 | beyond the empty loop, million a second |')
        print('|---|---|---|---|---|')
        bare = None
        for name, text in LOOPS:
            ours = run_dart(dart, text.format(n=TURNS), 0, UNITS, runs)[0] - run_dart(dart, text.format(n=0), 0, UNITS, runs)[0]
            c = (taken([peer, name, str(TURNS), str(TIMES)], 0, runs)[0] - taken([peer, name, '0', '0'], 0, runs)[0]) / TIMES
            rates = f'{TURNS / ours / 1e6:.2f} | {TURNS / c / 1e6:.0f} | {ours / c:.0f}'
            net = f'{TURNS / (ours - bare) / 1e6:.2f}' if bare else ''
            print(f'| {name.replace("_", " ")} | {rates} | {net} |', flush=True)
            bare = bare or ours


def weigh(dart):
    print('| a store full of | bytes a unit at 2,000,000 units |')
    print('|---|---|')
    for name, text in MADE:
        whole, half = (run_dart(dart, text, LIMIT, units, 1)[1] for units in (UNITS, UNITS // 2))
        print(f'| {name} | {(whole - half) / (UNITS - UNITS // 2):.0f} |', flush=True)


def main():
    options = argparse.ArgumentParser()
    options.add_argument('--runs', type=int, default=5)
    options.add_argument('--dart', default=DART)
    options.add_argument('--weigh', action='store_true')
    given = options.parse_args()
    compare(given.dart, given.runs)
    if given.weigh:
        weigh(given.dart)


if __name__ == '__main__':
    main()
