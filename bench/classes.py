#!/usr/bin/env python3
"""Times programs of many classes, and prints ratios.

usage: bench/classes.py [--runs N] [--sizes 250,500,1000,2000] [--dart PROGRAM]

A chain has each class extend the one before, a row of mixins is mixed into one class, and a plain program has classes
that stand alone; each class has a field and a method. `main` does nothing. For the time until all classes are built
and translated `main` has a `break` that goes nowhere, and stands last: the program is refused for it, behind all that
is done for the classes, and before anything is done to run. Each figure is the least processor time of N runs, net of
the same program without these classes. Ratios hold within one run of this script alone.
"""
import argparse
import os
import sys
import tempfile

HERE = os.path.dirname(os.path.abspath(__file__))

# What stands for `main`, and the status of such a program.
MAINS = {'built and translated': ('main() { break; }\n', 3), 'run': ('main() {}\n', 0)}


def plain(count):
    return ''.join(f'class C{n} {{ var f{n}; m{n}() => {n}; }}\n' for n in range(count))


def chain(count):
    above = ['Object'] + [f'C{n}' for n in range(count - 1)]
    return ''.join(f'class C{n} extends {above[n]} {{ var f{n}; m{n}() => {n}; }}\n' for n in range(count))


def mixins(count):
    return plain(count) + 'class D extends Object with ' + ', '.join(f'C{n}' for n in range(count)) + ' {}\n'


def seconds(words, folder, due):
    """Processor time of one run, which must end with this status."""
    child = os.fork()
    if child == 0:
        os.chdir(folder)
        os.dup2(os.open(os.devnull, os.O_WRONLY), 1)
        os.execv(words[0], words)
    _, status, usage = os.wait4(child, 0)
    if os.waitstatus_to_exitcode(status) != due:
        sys.exit(f'{" ".join(words)} ended with {os.waitstatus_to_exitcode(status)}, not {due}')
    return usage.ru_utime + usage.ru_stime


def best(given, folder, text, due):
    with open(os.path.join(folder, 'a.dart'), 'w') as out:
        out.write(text)
    return min(seconds([os.path.abspath(given.dart), 'run', 'a.dart'], folder, due) for _ in range(given.runs))


def main():
    options = argparse.ArgumentParser()
    options.add_argument('--runs', type=int, default=7)
    options.add_argument('--sizes', default='250,500,1000,2000')
    options.add_argument('--dart', default=os.path.join(HERE, '..', 'build', 'dart'))
    given = options.parse_args()
    sizes = [int(size) for size in given.sizes.split(',')]
    print('| program | until it is |' + ''.join(f' {size} |' for size in sizes) + ' time a byte, plain = 1 |')
    print('|---|---|' + '---|' * (len(sizes) + 1))
    with tempfile.TemporaryDirectory() as folder:
        for until, (last, due) in MAINS.items():
            base = best(given, folder, last, due)
            whole = None
            for name, shape in (('plain', plain), ('chain', chain), ('mixins', mixins)):
                net = [max(best(given, folder, shape(size) + last, due) - base, 1e-9) for size in sizes]
                a_byte = net[-1] / len(shape(sizes[-1]))
                whole = whole or a_byte
                ratios = ''.join(f' {time / net[0]:.1f} |' for time in net)
                print(f'| {name} | {until} |{ratios} {a_byte / whole:.2f} |', flush=True)


if __name__ == '__main__':
    main()
