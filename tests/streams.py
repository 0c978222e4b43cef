"""Standard input in reads of chosen sizes, and faults of it."""
import array
import fcntl
import os
import random
import subprocess
import termios
import threading
import time
import tty
from itertools import repeat

import reference
from reference import BLOCK, Order
from support import Skipped, Told, done, expect_told, refused

PIPE_SIZE = 1 << 20


def waiting(pipe):
    """How many bytes lie in a pipe."""
    count = array.array('i', [0])
    fcntl.ioctl(pipe, termios.FIONREAD, count)
    return count[0]


def feed(pipe, data, sizes, ended):
    """Writes the data in parts of these sizes, each once the one before it was read, so that a read gives one part. It
    stops where the program has ended before."""
    at = 0
    try:
        while at < len(data):
            size = next(sizes)
            os.write(pipe, data[at:at + size])
            at += size
            while waiting(pipe) and not ended.is_set():
                time.sleep(0)
    except BrokenPipeError:
        pass
    finally:
        os.close(pipe)


def told_of_parts(program, words, data, sizes):
    reader, writer = os.pipe()
    fcntl.fcntl(writer, 1031, PIPE_SIZE)  # F_SETPIPE_SZ
    child = subprocess.Popen([program, *words], stdin=reader, stdout=subprocess.PIPE, stderr=subprocess.PIPE)
    os.close(reader)
    ended = threading.Event()
    feeder = threading.Thread(target=feed, args=(writer, data, iter(sizes), ended))
    feeder.start()
    out, err = child.communicate()
    ended.set()
    feeder.join()
    return Told(child.returncode, out, err)


def expect_parts(program, kind, data, piece_length, sizes, note):
    words = ['make', '--name', 'a', '--kind', kind, '--piece-length', str(piece_length)]
    order = Order(kind, True, b'a', piece_length, None, False, 'one', 1, 16)
    wanted = done(reference.make([((b'a',), data)], order))
    expect_told(words, wanted, told_of_parts(program, words, data, sizes), f'in reads of {note}\n')


def test_reads_of_one_size(program, _folder):
    data = random.Random(1).randbytes((5 << 20) + 5)
    for size in [4095, 4096, 4097, 16384, 65535, 65536, 65537, 131072, 1 << 20]:
        for kind in ['v1', 'v2']:
            count = 40 * size if size < 16384 else len(data)
            expect_parts(program, kind, data[:count], BLOCK, repeat(size), size)
    expect_parts(program, 'hybrid', data, 2 * BLOCK, repeat(65536), 65536)


def test_reads_of_a_byte(program, _folder):
    data = random.Random(2).randbytes(BLOCK + 3)
    for kind in ['v1', 'v2', 'hybrid']:
        expect_parts(program, kind, data, BLOCK, repeat(1), 1)


def test_reads_of_every_size(program, _folder):
    """Parts of 1, 2, 3, .. bytes; then whole buffers of any size at once."""
    data = random.Random(3).randbytes(500_000)
    expect_parts(program, 'hybrid', data, BLOCK, range(1, 2000), '1, 2, 3, ..')
    large = random.Random(4).randbytes((8 << 20) + 1)
    for length in [(1 << 21) - 1, 1 << 21, (1 << 21) + 1, 1 << 22, (1 << 22) + 1, 8 << 20, (8 << 20) + 1]:
        expect_parts(program, 'v2', large[:length], BLOCK, repeat(PIPE_SIZE), f'{length} bytes')


def told_of_terminal(program, words, data):
    """The input is a terminal's other end: after the data, and once the terminal is closed, its reads fail."""
    try:
        master, slave = os.openpty()
    except OSError as error:
        raise Skipped(f'no pseudo-terminal: {error}') from None
    tty.setraw(slave)
    child = subprocess.Popen([program, *words], stdin=master, stdout=subprocess.PIPE, stderr=subprocess.PIPE)
    os.close(master)
    os.write(slave, data)
    time.sleep(0.3)
    os.close(slave)
    out, err = child.communicate(timeout=60)
    return Told(child.returncode, out, err)


def test_a_fault_after_some_bytes(program, _folder):
    """It is told before any fault of the words, and nothing is made."""
    for words in [['make', '--name', 'a'], ['make', '--name', '..'], ['make', '--name', 'a', '--piece-length', '5'],
                  ['make', '--name', 'a', '--kind', 'hybrid', '--span', '3']]:
        expect_told(words, refused('read fault', 3), told_of_terminal(program, words, b'ab'))
