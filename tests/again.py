"""Many runs of a program in one process: its main is called again and again, which costs a twentieth of a new process.

again.c is loaded before the C library, so this needs Linux and a C compiler, `cc`; else a test is skipped. All that a
process keeps from run to run is what the program left in it, so that a run is tried alone before it is called wrong.
"""
import os
import select
import signal
from collections import namedtuple
from pathlib import Path

from refuser import TOLD, built
from support import Told, preloadable

# A process that takes longer hangs.
TIME_LIMIT = 60
# Digits of the number of a run, which ends the name of its file.
DIGITS = 3

# What came of some runs: of each that ended what it told, and how the process ended, None where all runs did.
Came = namedtuple('Came', 'told fault')


class Again:
    """Runs one program in an address space of so many bytes. Its files are in a folder."""

    def __init__(self, program, folder, room):
        self.program, self.room = preloadable(program), room
        self.out, self.err, self.told = (os.path.join(folder, f'again.{name}') for name in ('out', 'err', 'told'))
        self.place = os.path.join(folder, 'torrent.')
        self.library = built(Path(folder), 'again')

    def run(self, command, texts, *more):
        """Runs the command on a file of each of these texts, of which there are at most a thousand."""
        if not texts:
            return Came([], None)
        for number, text in enumerate(texts):
            write(f'{self.place}{number:0{DIGITS}}', text)
        words = [self.program, command, f'{self.place}{0:0{DIGITS}}', *more]
        fault = wait(os.posix_spawn(self.program, words, self.environment(len(texts)), file_actions=self.files()))
        told = self.read()
        if fault is None and len(told) != len(texts):
            fault = f'{len(told)} of {len(texts)} runs'
        return Came(told, fault)

    def environment(self, runs):
        # The C library has one arena, since each takes 64 MB of the address space.
        return {'LD_PRELOAD': self.library, 'AGAIN_RUNS': str(runs), 'AGAIN_WORD': '2', 'AGAIN_ROOM': str(self.room),
                'AGAIN_TOLD': str(TOLD), 'MALLOC_ARENA_MAX': '1'}

    def files(self):
        written = os.O_WRONLY | os.O_CREAT | os.O_TRUNC
        return [(os.POSIX_SPAWN_OPEN, 0, os.devnull, os.O_RDONLY, 0)] + [
            (os.POSIX_SPAWN_OPEN, file, place, written, 0o644)
            for file, place in ((1, self.out), (2, self.err), (TOLD, self.told))]

    def read(self):
        """What each run told that ended."""
        out, err, told = map(read, (self.out, self.err, self.told))
        found, at, err_at = [], 0, 0
        for line in told.splitlines():
            status, end, err_end = map(int, line.split())
            found.append(Told(status, out[at:end], err[err_at:err_end]))
            at, err_at = end, err_end
        return found


def write(place, data):
    file = os.open(place, os.O_WRONLY | os.O_CREAT | os.O_TRUNC, 0o644)
    try:
        os.write(file, data)
    finally:
        os.close(file)


def read(place):
    with open(place, 'rb', buffering=0) as file:
        return file.read()


def wait(child):
    """Waits for a process: how it ended, None where it ended by itself and well."""
    file = os.pidfd_open(child)
    try:
        ends = select.select([file], [], [], TIME_LIMIT)[0]
    finally:
        os.close(file)
    if not ends:
        os.kill(child, signal.SIGKILL)
    status = os.waitstatus_to_exitcode(os.waitpid(child, 0)[1])
    if not ends:
        return f'no end within {TIME_LIMIT} seconds'
    return f'status {status}' if status else None
