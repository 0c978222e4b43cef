"""What all tests share: runs of the program, and how a failure is told."""
import os
import subprocess
from collections import namedtuple
from pathlib import Path

Told = namedtuple('Told', 'status out err')

# A run that takes longer hangs.
TIME_LIMIT = 150


class Failure(Exception):
    """A test that failed; its text says what was run, what was wanted, and what came."""


class Skipped(Exception):
    """A test that cannot be run here, and why."""


# The environment variable that names the program as it loads the C library of the machine.
DYNAMIC = 'TOR_DYNAMIC'
# That which names the folder of the library for programs in other languages.
LIBRARY = 'TOR_LIBRARY'


def preloadable(program):
    """The program as it loads the C library of the machine, for tests that put a library of their own before that. A
    static program loads none."""
    for place in os.environ.get(DYNAMIC), program:
        if place and b'/ld-linux-x86-64' in Path(place).read_bytes()[:4096]:
            return str(place)
    raise Skipped('it needs a program that loads its C library: --dynamic')


def run(program, words, data=b'', folder=None, **more):
    """Runs the program with these words on this input. Words are texts or bytes."""
    try:
        done = subprocess.run([program, *words], input=data, cwd=folder, capture_output=True,
                              timeout=TIME_LIMIT, check=False, **more)
    except subprocess.TimeoutExpired:
        raise Failure(f'run     {shown_words(words)}\nno end within {TIME_LIMIT} seconds') from None
    return Told(done.returncode, done.stdout, done.stderr)


def shown_words(words):
    return ' '.join(['tor'] + [word if isinstance(word, str) else repr(word) for word in map(shortened, words)])


def shortened(value, most=600):
    if len(value) <= most:
        return value
    ellipsis = b' .. ' if isinstance(value, bytes) else ' .. '
    return value[:most // 2] + ellipsis + value[-most // 2:]


def shown(told):
    return f'status {told.status}\n  out {shortened(told.out)!r} ({len(told.out)} bytes)\n  err {shortened(told.err)!r}'


def expect(program, words, wanted, data=b'', folder=None, note='', **more):
    """Runs the program, and wants exactly this status, output and error."""
    told = run(program, words, data, folder, **more)
    expect_told(words, wanted, told, note)
    return told


def expect_told(words, wanted, told, note=''):
    if told != wanted:
        at = first_difference(wanted.out, told.out)
        where = f'\nthe outputs differ first at byte {at}' if at is not None else ''
        raise Failure(f'{note}run     {shown_words(words)}\nwanted  {shown(wanted)}\ncame    {shown(told)}{where}')


def first_difference(wanted, came):
    for i, (one, other) in enumerate(zip(wanted, came)):
        if one != other:
            return i
    return None if len(wanted) == len(came) else min(len(wanted), len(came))


def expect_equal(what, wanted, came):
    if wanted != came:
        raise Failure(f'{what}\nwanted  {wanted!r}\ncame    {came!r}')


def refused(line, status=1):
    return Told(status, b'', b'tor: ' + (line if isinstance(line, bytes) else line.encode()) + b'\n')


def done(out=b'', status=0):
    return Told(status, out, b'')
