#!/usr/bin/env python3
"""Times the front end against luac and gcc on files of one shape, and prints ratios.

usage: bench/front.py [--runs N] [--sizes 0.5,1,2,16] [--dart PROGRAM] [--files FOLDER] [--hard]

The files hold classes (structs in C, tables in Lua) with fields, loops, branches and texts. The numbers in them come
from a generator with a fixed start, so that the bytes are the same at each run. With --files the files front.dart,
front.lua and front.c of a folder are timed instead. Each figure is the best of N runs, net of the time that the same
program takes for an empty file. Times hold only as ratios within one run of this script. The memory of a small run is
that of the script, of which the peers are children.

With --hard `dart erase` alone is timed, on sources that are long, deep or wrong, beside a megabyte of the plain ones.
"""
import argparse
import math
import os
import resource
import shutil
import signal
import subprocess
import sys
import tempfile
import time

HERE = os.path.dirname(os.path.abspath(__file__))

# Seconds of processor time after which a run is given up.
SECONDS = 20

DART = '''
/* Shelf @n holds parts between two marks. */
class Shelf@n extends Rack {
  final List<int> parts = new List<int>();
  int mark = @a;
  String label;

  Shelf@n(this.label, int room) : super(room);

  int stock(int count) {
    for (var i = 0; i < count; i++) {
      if (i % @b == 0) {
        parts.add(i * @c + mark); // every @b
      } else {
        mark = mark + (i & @a) - @b;
      }
    }
    return parts.length;
  }

  bool fits(int at) => at >= 0 && at < parts.length && parts[at] != @c || mark <= @a;

  String toString() => 'shelf @n $label: ${parts.length} of ${mark + @c}';
}

int fill@n(int count, [int first = @b]) {
  var shelf = new Shelf@n('s@n', @c);
  Map<String, int> seen = {'low': @a, 'high': first};
  while (first > 0) {
    first = first - @b;
    if (shelf.fits(first)) seen['low'] = first;
  }
  return shelf.stock(count) + seen.length;
}
'''
DART_HEAD = '''class Rack {
  final int room;
  Rack(this.room);
}
'''
DART_TAIL = '''
main() {
  print(fill0(40));
}
'''

LUA = '''
-- Shelf @n holds parts between two marks.
do
  local Shelf@n = { mark = @a, label = "shelf" }
  Shelf@n.__index = Shelf@n

  function Shelf@n.make(label, room)
    return setmetatable({ label = label, room = room, parts = {} }, Shelf@n)
  end

  function Shelf@n:stock(count)
    for i = 0, count - 1 do
      if i % @b == 0 then
        self.parts[#self.parts + 1] = i * @c + self.mark -- every @b
      else
        self.mark = self.mark + (i & @a) - @b
      end
    end
    return #self.parts
  end

  function Shelf@n:fits(at) return at >= 0 and at < #self.parts and self.parts[at] ~= @c or self.mark <= @a end

  function Shelf@n:text() return "shelf @n " .. self.label .. ": " .. #self.parts .. " of " .. (self.mark + @c) end

  function fill@n(count, first)
    local shelf = Shelf@n.make("s@n", @c)
    local seen = { low = @a, high = first or @b }
    first = first or @b
    while first > 0 do
      first = first - @b
      if shelf:fits(first) then seen.low = first end
    end
    return shelf:stock(count) + #seen
  end
end
'''

C = '''
/* Shelf @n holds parts between two marks. */
struct shelf@n { int parts[64]; int length; int mark; const char *label; };

static int stock@n(struct shelf@n *shelf, int count) {
  for (int i = 0; i < count; i++) {
    if (i % @b == 0) {
      shelf->parts[shelf->length++] = i * @c + shelf->mark; // every @b
    } else {
      shelf->mark = shelf->mark + (i & @a) - @b;
    }
  }
  return shelf->length;
}

static int fits@n(struct shelf@n *shelf, int at) {
  return (at >= 0 && at < shelf->length && shelf->parts[at] != @c) || shelf->mark <= @a;
}

static int text@n(struct shelf@n *shelf, char *to, int room) {
  return snprintf(to, room, "shelf @n %s: %d of %d", shelf->label, shelf->length, shelf->mark + @c);
}

int fill@n(int count, int first) {
  struct shelf@n shelf = { { 0 }, 0, @a, "s@n" };
  int low = @a, high = first;
  char text[64];
  while (first > 0) {
    first = first - @b;
    if (fits@n(&shelf, first)) low = first;
  }
  return stock@n(&shelf, count) + low + high + text@n(&shelf, text, 64);
}
'''
C_HEAD = 'int snprintf(char *to, unsigned long room, const char *shape, ...);\n'

SHAPES = {
    'dart': (DART_HEAD, DART, DART_TAIL),
    'lua': ('', LUA, '\nprint(fill0(40))\n'),
    'c': (C_HEAD, C, '\nint main(void) { return fill0(40, 3); }\n'),
}

COMMENTS = {
    'dart': ('/*\n', ' * A shelf takes parts until it is full, and then the next one does.\n', ' */\n'),
    'lua': ('--[[\n', ' * A shelf takes parts until it is full, and then the next one does.\n', ' ]]\n'),
    'c': ('/*\n', ' * A shelf takes parts until it is full, and then the next one does.\n', ' */\n'),
}

# Bytes of code that a file has at most: a unit's weight has a limit, so a longer file is filled up with comments.
CODE = 3_000_000


def comment(shape, length):
    """Lines of a comment, of about so many bytes."""
    begin, line, end = COMMENTS[shape]
    return begin + line * (length // len(line)) + end if length > 0 else ''


def write(path, shape, size):
    """Writes a file of at least so many bytes, and says how many it has."""
    head, unit, tail = SHAPES[shape]
    unit += comment(shape, int(len(unit) * (size / CODE - 1)))
    state, number, length = 1, 0, 0
    with open(path, 'w') as out:
        length += out.write(head)
        while length < size - len(tail):
            text = unit.replace('@n', str(number))
            for mark in '@a', '@b', '@c':
                state = (1103515245 * state + 12345) % 2 ** 31
                text = text.replace(mark, str(2 + state // 65536 % 997))
            length += out.write(text)
            number += 1
        length += out.write(tail)
    return length


def nested(times, before, inside, after):
    return before * times + inside + after * times


def defaults(depth, closed):
    """Function literals, each in the default value of a parameter of the one around it."""
    opened = ''.join('([a%d = ' % number for number in range(depth))
    return 'main() { x = ' + opened + '1' + ('])' * depth + ';' if closed else '') + ' }\n'


def hard(plain):
    """The hard sources: what each is called, and its text."""
    strings = nested(150, "'a${", 'b', "}'")
    literals = ''.join('f%d([g = %s]) => g;\n' % (number, nested(40, '([h = ', '1', ']) => h')) for number in range(50))
    return [
        ('300,000 open brackets', 'main() { print(' + '(' * 300_000),
        ('300,000 brackets, closed', 'main() { print(' + nested(300_000, '(', '1', ')') + '); }\n'),
        ('300,000 open `List<`', 'List<' * 300_000),
        ('a row of 300,000 `+`', 'var x = 1' + ' + 1' * 300_000 + ';\n'),
        ('a row of 100,000 `a ? b :`', 'var x = ' + 'a ? b : ' * 100_000 + 'c;\n'),
        ('100,000 labels', 'main() { ' + ''.join('l%d: ' % number for number in range(100_000)) + 'x(); }\n'),
        ('300,000 open braces', 'main() ' + '{' * 300_000),
        ('20,000 times `a < b > (c) ;`', 'main() { ' + 'a < b > (c) ;\n' * 20_000 + '}\n'),
        ('20,000 times `a < b , c > d ;`', 'main() { ' + 'a < b , c > d ;\n' * 20_000 + '}\n'),
        ('150 strings in strings, 300 times', 'main() {\n' + ('print(%s);\n' % strings) * 300 + '}\n'),
        ('40 literals in default values, 50 times', literals),
        ('60 default values, closed', defaults(60, True)),
        ('60 default values, open', defaults(60, False)),
        ('half a file', plain[:len(plain) // 2]),
        ('one token', 'class'),
    ]


def time_hard(given, folder):
    """Times `dart erase` on the hard sources, and prints how they compare with the plain one."""
    def net(text):
        with open(os.path.join(folder, 'hard.dart'), 'w') as out:
            out.write(text)
        return max(best([os.path.abspath(given.dart), 'erase', 'hard.dart'], folder, given.runs)[0] - base, 1e-9)
    base = best([os.path.abspath(given.dart), 'erase', 'empty.dart'], folder, given.runs)[0]
    write(os.path.join(folder, 'plain.dart'), 'dart', 1e6)
    with open(os.path.join(folder, 'plain.dart')) as source:
        plain = source.read()
    whole = net(plain)
    print('| source | KB | time, plain megabyte = 1 | time a byte, plain = 1 |')
    print('|---|---|---|---|')
    for name, text in hard(plain):
        part = net(text) / whole
        if part == math.inf:
            print(f'| {name} | {len(text) / 1e3:.1f} | more than {SECONDS} s |  |', flush=True)
            continue
        # Of a short file the time is that of the process.
        a_byte = f'{part * len(plain) / len(text):.2f}' if len(text) > 100_000 else ''
        print(f'| {name} | {len(text) / 1e3:.1f} | {part:.3f} | {a_byte} |', flush=True)


def run(words, folder):
    """Seconds and kilobytes of one run, the seconds being endless where it takes too many."""
    begin = time.perf_counter()
    child = subprocess.Popen(words, cwd=folder, stdout=subprocess.DEVNULL, stderr=subprocess.DEVNULL,
                             preexec_fn=lambda: resource.setrlimit(resource.RLIMIT_CPU, (SECONDS, SECONDS)))
    _, status, usage = os.wait4(child.pid, 0)
    child.returncode = os.waitstatus_to_exitcode(status)
    taken = time.perf_counter() - begin
    return math.inf if child.returncode == -signal.SIGKILL else taken, usage.ru_maxrss


def best(words, folder, runs):
    found = [run(words, folder) for _ in range(runs)]
    return min(t for t, _ in found), max(m for _, m in found)


def sizes_of(given, folder):
    """What is timed: for each size its label and a function that puts the file of a shape into the folder."""
    if given.files:
        return [('given', lambda shape: shutil.copy(os.path.join(given.files, f'front.{shape}'), folder))]
    return [(size, lambda shape, size=size: write(os.path.join(folder, f'front.{shape}'), shape, float(size) * 1e6))
            for size in given.sizes.split(',')]


def main():
    options = argparse.ArgumentParser()
    options.add_argument('--runs', type=int, default=5)
    options.add_argument('--sizes', default='0.5,1,2,16')
    options.add_argument('--files')
    options.add_argument('--dart', default=os.path.join(HERE, '..', 'build', 'dart'))
    options.add_argument('--hard', action='store_true')
    given = options.parse_args()
    if given.hard:
        with tempfile.TemporaryDirectory() as folder:
            open(os.path.join(folder, 'empty.dart'), 'w').close()
            time_hard(given, folder)
        return
    peers = [('dart erase', 'dart', [os.path.abspath(given.dart), 'erase'])]
    for name, shape, words in [('luac -p', 'lua', ['luac', '-p']), ('gcc -fsyntax-only', 'c', ['gcc', '-fsyntax-only'])]:
        if shutil.which(words[0]):
            peers.append((name, shape, words))
        else:
            print(f'{words[0]} is missing: left out', file=sys.stderr)
    print('| front end | MB | MB/s, dart erase = 1 | time, size before = 1 | memory, MB |')
    print('|---|---|---|---|---|')
    with tempfile.TemporaryDirectory() as folder:
        for shape in SHAPES:
            open(os.path.join(folder, f'empty.{shape}'), 'w').close()
        base = {name: best(words + [f'empty.{shape}'], folder, given.runs)[0] for name, shape, words in peers}
        before = {}
        for _, put in sizes_of(given, folder):
            own = None
            for name, shape, words in peers:
                put(shape)
                length = os.path.getsize(os.path.join(folder, f'front.{shape}'))
                seconds, memory = best(words + [f'front.{shape}'], folder, given.runs)
                net = max(seconds - base[name], 1e-9)
                own = own or length / net
                grown = f'{net / before[name]:.2f}' if name in before else ''
                before[name] = net
                print(f'| {name} | {length / 1e6:.2f} | {length / net / own:.2f} | {grown} | {memory / 1024:.0f} |', flush=True)


if __name__ == '__main__':
    main()
