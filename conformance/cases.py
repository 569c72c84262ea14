"""The cases of conformance/ and examples/: where each is, what it runs and what is due. `run`, `cores` and `sweep` use it.

A case NAME is a file NAME.stdout, which holds the bytes that are due, and beside it:
    NAME.dart     the file that is run; where there is none, the words stand in NAME.args
    NAME.repeat   in place of NAME.dart: a number and a line feed, and then the bytes that NAME.dart has so many times
    NAME.files/   further files, which lie in the folder that the program runs in
    NAME.copies   a number and a line feed, and then the bytes of each of so many further files f0.dart, f1.dart ..
    NAME.args     the words, one a line; without it they are `run` and `NAME.dart`, in erased/ `erase` and `NAME.dart`, in core/ `NAME.dart`
    NAME.status   the status, where it isn't that of the case's folder (STATUS, below)
    NAME.output   a device that takes the output, in place of a comparison

Those of core/ are run by `core_print`, all others by `dart`.
"""
import argparse
import os
import pathlib
import shutil
import subprocess
import sys

ROOT = pathlib.Path(__file__).resolve().parent.parent
DART = ROOT / 'dart'
# The launcher's status where the program can't be built.
NOT_BUILT = 125
STATUS = {
    'examples': 0, 'runs': 0, 'erased': 0, 'warned': 1, 'usage': 2, 'refused': 3, 'uncaught': 4, 'fails-check': 5, 'limits': 6,
    'core': 0,
}
CORES = ROOT / 'conformance' / 'core'
ENDINGS = ('.stdout', '.dart', '.repeat', '.files', '.copies', '.args', '.status', '.output')


def cases_in(folders):
    """The paths of the cases in the folders, without their endings."""
    return [p.with_suffix('') for folder in folders for p in sorted(folder.glob('*.stdout'))]


def all_cases():
    """All cases that `dart` runs."""
    return cases_in([ROOT / 'examples'] + sorted(p for p in (ROOT / 'conformance').iterdir() if p.is_dir() and p != CORES))


def all_cores():
    """All cases that `core_print` runs."""
    return cases_in([CORES])


def beside(case, ending):
    return case.with_name(case.name + ending)


def shown(case):
    return os.path.relpath(case, ROOT)


def words(case):
    """The words of the case, as bytes, since a word need not be text."""
    args = beside(case, '.args')
    if args.exists():
        return args.read_bytes().split(b'\n')[:-1]
    command = {'erased': [b'erase'], 'core': []}.get(case.parent.name, [b'run'])
    return command + [os.fsencode(case.name + '.dart')]


def due_status(case):
    status = beside(case, '.status')
    return int(status.read_text()) if status.exists() else STATUS[case.parent.name]


def has_source(case):
    return beside(case, '.dart').exists() or beside(case, '.repeat').exists()


def lay_out(case, folder):
    """Puts the files of the case into the folder."""
    source, repeat, files, copies = (beside(case, ending) for ending in ('.dart', '.repeat', '.files', '.copies'))
    if files.is_dir():
        shutil.copytree(files, folder, dirs_exist_ok=True)
    if source.exists():
        shutil.copy(source, folder)
    if repeat.exists():
        times, piece = repeat.read_bytes().split(b'\n', 1)
        (pathlib.Path(folder) / (case.name + '.dart')).write_bytes(int(times) * piece)
    if copies.exists():
        count, text = copies.read_bytes().split(b'\n', 1)
        for number in range(int(count)):
            (pathlib.Path(folder) / ('f%d.dart' % number)).write_bytes(text)


def named(word, cases):
    """The cases that a word of the command line names: one, or those of a folder."""
    path = pathlib.Path(os.path.abspath(word))
    if path.suffix in ENDINGS:
        path = path.with_suffix('')
    return [case for case in cases if path in (case, case.parent)]


def own(word):
    """A file of the caller's own, as a case of which nothing is due."""
    path = pathlib.Path(os.path.abspath(word))
    return [path.with_suffix('')] if path.suffix == '.dart' and path.is_file() else []


def chosen(description, takes_own=False, cases=None):
    """Those of the cases that the command line names, or all; they are those of `dart` where none are given. Ends with status 2 where a word names none."""
    cases = all_cases() if cases is None else cases
    parser = argparse.ArgumentParser(
        description=description, formatter_class=argparse.RawDescriptionHelpFormatter)
    parser.add_argument(
        'case', nargs='*', metavar='CASE',
        help='a case such as %s%s or a folder of cases; without one, all' % (
            shown(cases[0]), ', a .dart file of your own' if takes_own else ''))
    found = []
    for word in parser.parse_args().case:
        some = named(word, cases) or (takes_own and own(word))
        if not some:
            parser.error('there is no case %s' % word)
        found += [case for case in some if case not in found]
    return found or cases


def build():
    """Builds the program where that is due. Where it can't be built, says so and ends with status 1."""
    if subprocess.run([DART], stdin=subprocess.DEVNULL, stdout=subprocess.DEVNULL).returncode == NOT_BUILT:
        print('FAILED: there is no program to run')
        sys.exit(1)
