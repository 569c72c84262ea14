#!/usr/bin/env python3
"""Times programs by `dart run`, in production and with `--checked`, against the same programs by other interpreters.

usage: bench/run.py [--runs N] [--only NAME,..] [--programs FOLDER] [--empty NAME] [--dart PROGRAM]..

The folder, bench/runs where none is given, has each program as NAME.dart, and as NAME.py, NAME.pl, NAME.lua or NAME.js for the peers
that are to run it; a peer that isn't installed, or lacks a program, is left out. Each must write what CPython writes. Figures are
processor time, the best of N runs in turn, net of the program that does nothing, `empty` where no other is named. The first table has
CPython = 1, the second production = 1. Ratios hold within one run alone. --dart may stand more than once, to compare builds.
"""
import argparse
import os
import resource
import shutil
import subprocess
import sys

HERE = os.path.dirname(os.path.abspath(__file__))
LIMITS = ['--steps', '1000000000', '--units', '2000000']
PEERS = (
    ('CPython', 'py', [sys.executable, '-I']),
    ('Perl', 'pl', ['perl']),
    ('Lua', 'lua', ['lua5.4']),
    ('Node without a compiler', 'js', ['node', '--jitless']),
)
# Less processor time than this can't be told from none.
LEAST = 0.001


def once(words, folder):
    """Processor time of a run, in seconds, and what it wrote."""
    before = resource.getrusage(resource.RUSAGE_CHILDREN)
    ended = subprocess.run(words, cwd=folder, stdin=subprocess.DEVNULL, stdout=subprocess.PIPE, timeout=600)
    after = resource.getrusage(resource.RUSAGE_CHILDREN)
    if ended.returncode:
        sys.exit(f'{" ".join(words)} ended with {ended.returncode}')
    used = after.ru_utime - before.ru_utime + after.ru_stime - before.ru_stime
    return used, ended.stdout


def runners(darts):
    """Each runner's name, the ending of its programs, and its words before the program."""
    found = [one for one in PEERS if shutil.which(one[2][0])]
    for number, program in enumerate(darts):
        label = f' ({number + 1})' if number else ''
        words = [os.path.abspath(program), 'run', *LIMITS]
        found.append((f'dart run{label}', 'dart', words))
        found.append((f'dart run --checked{label}', 'dart', [*words, '--checked']))
    return found


def times(given, names):
    """The least time of each runner's programs, where it has all of them."""
    able = [one for one in runners(given.dart)
            if all(os.path.isfile(os.path.join(given.programs, f'{name}.{one[1]}')) for name in names)]
    least, wanted = {}, {}
    for name in names:
        for _ in range(given.runs):
            for runner, ending, words in able:
                used, wrote = once([*words, f'{name}.{ending}'], given.programs)
                if wrote != wanted.setdefault(name, wrote):
                    sys.exit(f'{runner} writes something else for {name}')
                least[runner, name] = min(used, least.get((runner, name), used))
    return [one[0] for one in able], least


def row(label, ratios):
    mean = 1.0
    for ratio in ratios:
        mean *= ratio ** (1 / len(ratios))
    print(f'| {label} | ' + ' | '.join(f'{ratio:.2f}' for ratio in ratios) + f' | {mean:.2f} |')


def table(head, loads, rows, base, net):
    print(f'\n| {head} | ' + ' | '.join(loads) + ' | geometric mean |')
    print('|---' * (len(loads) + 2) + '|')
    for runner in rows:
        row(runner, [net(runner, load) / net(base, load) for load in loads])


def main():
    options = argparse.ArgumentParser(description=__doc__, formatter_class=argparse.RawDescriptionHelpFormatter)
    options.add_argument('--runs', type=int, default=3)
    options.add_argument('--only')
    options.add_argument('--programs', default=os.path.join(HERE, 'runs'))
    options.add_argument('--empty', default='empty')
    options.add_argument('--dart', action='append')
    given = options.parse_args()
    given.dart = given.dart or [os.path.join(HERE, '..', 'build', 'dart')]
    all_names = sorted(file[:-5] for file in os.listdir(given.programs) if file.endswith('.dart'))
    loads = given.only.split(',') if given.only else [name for name in all_names if name != given.empty]
    found, least = times(given, [given.empty, *loads])

    def net(runner, load):
        return max(least[runner, load] - least[runner, given.empty], LEAST)

    print(f'{os.cpu_count()} processors, load {os.getloadavg()[0]:.1f}, best of {given.runs}')
    table('time, CPython = 1', loads, found, 'CPython', net)
    for number in range(len(given.dart)):
        label = f' ({number + 1})' if number else ''
        table(f'time, dart run{label} = 1', loads, [f'dart run --checked{label}'], f'dart run{label}', net)


if __name__ == '__main__':
    main()
