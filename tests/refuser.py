"""Runs of a program some of whose calls are refused, or held while something is done, or at which it is killed.

refuser.c is loaded before the C library, so this needs Linux and a C compiler, `cc`; else a test is skipped.
"""
import errno
import os
import select
import shutil
import signal
import subprocess
from collections import namedtuple
from pathlib import Path

from support import Failure, Skipped, preloadable, shown_words

# A run that takes longer hangs.
TIME_LIMIT = 60
ALL_LATER = 1 << 40
# Descriptors of the program: on which it tells the calls that were met, and from which it is let go on.
TOLD, GO = 99, 98

# Which calls are met, as refuser.c says: the kinds that count, the first and the last of them, what meets them, the
# error of those that are refused, the most bytes of a write, a file that cannot be read, and the most bytes of a read.
Meet = namedtuple('Meet', 'kinds first last does error most broken short',
                  defaults=('', 0, 0, 'refuse', errno.EIO, 0, '', 0))
# A call that was met.
Met = namedtuple('Met', 'kind file offset place')
# How a run ended: its status (-9 where it was killed), its output, and the calls that were met.
Ended = namedtuple('Ended', 'status out err met')


class Refuser:
    """Runs one program; the library and what the program prints are files of a folder. Without the library no call is
    met, but its runs are faster than those of `support`."""

    def __init__(self, program, folder, library=None):
        self.program = preloadable(program) if library is None else str(program)
        self.out, self.err, self.told = (str(Path(folder) / f'run.{name}') for name in ('out', 'err', 'told'))
        self.library = built(Path(folder)) if library is None else library

    def run(self, words, meet=Meet(), given=os.devnull, act=None):
        """Runs it with these words on the input in the file `given`. While a call is held, `act` is called with it."""
        child, go, told = self.start(words, meet, given)
        met = []
        if act:
            met = held(words, child, go, told, act)
        status = wait(words, child)
        if not act:
            met = [read_met(line) for line in Path(self.told).read_bytes().splitlines()]
        return self.ended(status, met)

    def ended(self, status, met):
        return Ended(status, Path(self.out).read_bytes(), Path(self.err).read_bytes(), met)

    def start(self, words, meet, given):
        """Its process, and, where calls are held, the descriptors that let it go on and on which it tells."""
        written = os.O_WRONLY | os.O_CREAT | os.O_TRUNC
        files = [(os.POSIX_SPAWN_OPEN, 0, given, os.O_RDONLY, 0), (os.POSIX_SPAWN_OPEN, 1, self.out, written, 0o644),
                 (os.POSIX_SPAWN_OPEN, 2, self.err, written, 0o644)]
        if meet.does != 'hold':
            files.append((os.POSIX_SPAWN_OPEN, TOLD, self.told, written | os.O_APPEND, 0o644))
            return self.spawn(words, meet, files), None, None
        told, tells = os.pipe()
        waits, go = os.pipe()
        child = self.spawn(words, meet, files + [(os.POSIX_SPAWN_DUP2, tells, TOLD), (os.POSIX_SPAWN_DUP2, waits, GO)])
        os.close(tells)
        os.close(waits)
        return child, go, told

    def spawn(self, words, meet, files):
        environment = {
            'LD_PRELOAD': self.library, 'REFUSER_KINDS': meet.kinds, 'REFUSER_FIRST': str(meet.first),
            'REFUSER_LAST': str(meet.last), 'REFUSER_DOES': meet.does, 'REFUSER_ERROR': str(meet.error),
            'REFUSER_MOST': str(meet.most), 'REFUSER_BROKEN': meet.broken, 'REFUSER_SHORT': str(meet.short),
            'REFUSER_TOLD': str(TOLD), 'REFUSER_GO': str(GO)}
        return os.posix_spawn(self.program, [self.program, *words], environment, file_actions=files)

    def each(self, words, meet, given=os.devnull, act=None, before=lambda: None):
        """Meets each call of these kinds in turn, with all later ones where `meet` says so: each run that met one."""
        first = 1
        while True:
            before()
            last = ALL_LATER if meet.last == ALL_LATER else first
            ended = self.run(words, meet._replace(first=first, last=last), given, act)
            if not ended.met:
                return
            yield ended
            first += 1


def built(folder, name='refuser'):
    """A library, which is made of its source here where it is not yet there."""
    library = folder / f'{name}.so'
    compiler = shutil.which('cc')
    if not compiler:
        raise Skipped('it needs a C compiler, cc')
    if not library.exists():
        source = Path(__file__).with_name(f'{name}.c')
        subprocess.run([compiler, '-O1', '-shared', '-fPIC', '-o', library, source], check=True)
    return str(library)


def read_met(line):
    kind, file, offset, place = line.split(b' ', 3)
    return Met(kind.decode(), int(file), int(offset), os.fsdecode(place))


def held(words, child, go, told, act):
    """Waits for each call that is held, calls `act`, and lets it go on: those calls."""
    met = []
    try:
        while True:
            if not select.select([told], [], [], TIME_LIMIT)[0]:
                hangs(words, child)
            lines = os.read(told, 8192).splitlines()
            if not lines:
                return met
            for line in lines:
                met.append(read_met(line))
                act(met[-1])
                os.write(go, b'g')
    finally:
        os.close(told)
        os.close(go)


def wait(words, child):
    """The status of a process."""
    file = os.pidfd_open(child)
    try:
        if not select.select([file], [], [], TIME_LIMIT)[0]:
            hangs(words, child)
    finally:
        os.close(file)
    return os.waitstatus_to_exitcode(os.waitpid(child, 0)[1])


def hangs(words, child):
    os.kill(child, signal.SIGKILL)
    os.waitpid(child, 0)
    raise Failure(f'run     {shown_words(words)}\nno end within {TIME_LIMIT} seconds')
