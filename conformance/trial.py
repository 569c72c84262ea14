"""Runs a program on cases, and compares what it writes and its status. `run` and `cores` use it; the head of cases.py says what a case is."""
import concurrent.futures
import difflib
import os
import subprocess
import tempfile

import cases

SECONDS = 60


def in_folder(program, case, folder):
    """Runs the program on the case in the folder. Answers its status and output, the output being None on a device."""
    cases.lay_out(case, folder)
    output = cases.beside(case, '.output')
    command = [os.fsencode(program)] + cases.words(case)
    if output.exists():
        with open(output.read_text().strip(), 'wb') as device:
            ended = subprocess.run(command, cwd=folder, stdin=subprocess.DEVNULL, stdout=device, timeout=SECONDS)
        return ended.returncode, None
    ended = subprocess.run(
        command, cwd=folder, stdin=subprocess.DEVNULL, stdout=subprocess.PIPE, timeout=SECONDS)
    return ended.returncode, ended.stdout


def in_full(written, due):
    """All that was written and is due, up to a length."""
    return 'wrote %r, due %r' % (written[:200], due[:200])


def by_lines(written, due):
    """The lines that differ, as a diff from what is due to what was written."""
    lines = [text.decode('utf-8', 'replace').splitlines() for text in (due, written)]
    return '\n' + '\n'.join(difflib.unified_diff(lines[0], lines[1], 'due', 'written', lineterm=''))


def complaint(program, case, difference):
    """What is wrong, as text that is empty where nothing is; None for a case that can't be tried here."""
    output = cases.beside(case, '.output')
    if output.exists() and not os.path.exists(output.read_text().strip()):
        return None
    with tempfile.TemporaryDirectory() as folder:
        try:
            status, written = in_folder(program, case, folder)
        except subprocess.TimeoutExpired:
            return 'no end within %d seconds' % SECONDS
    wrong = []
    if status != cases.due_status(case):
        wrong.append('status %d, due %d' % (status, cases.due_status(case)))
    due = cases.beside(case, '.stdout').read_bytes()
    if written is not None and written != due:
        wrong.append(difference(written, due))
    return '; '.join(wrong)


def all_pass(program, chosen, difference=in_full):
    """Says which of the cases failed, with the difference of their output, and counts them in the last line. Whether some passed and none failed."""
    passed = failed = 0
    with concurrent.futures.ThreadPoolExecutor(os.cpu_count()) as pool:
        for case, wrong in zip(chosen, pool.map(lambda case: complaint(program, case, difference), chosen)):
            if wrong is None:
                print('skipped %s: its device is missing here' % cases.shown(case))
            elif wrong:
                failed += 1
                print('FAILED %s: %s' % (cases.shown(case), wrong))
            else:
                passed += 1
    print('%d passed, %d failed' % (passed, failed))
    return bool(passed and not failed)
