"""How many workers there are: threads of the program while it reads a large file, and reads that it waits for at once.
"""
import os
import select
import subprocess
import time

import reference
from reference import BLOCK, encode, sha1
from refuser import ALL_LATER, TIME_LIMIT, Meet, Refuser, built, read_met, wait
from support import Failure, expect_equal, preloadable
from terminal import sparse

SIZE = 1 << 30
PIECE_LENGTH = 1 << 18
# How often threads are counted that are too few, or too many: where the machine is busy a look at them can come late.
TIMES = 3


def threads(pid):
    """The threads of a process, each with the time that it has worked."""
    found = {}
    for thread in os.listdir(f'/proc/{pid}/task'):
        try:
            with open(f'/proc/{pid}/task/{thread}/stat', 'rb') as file:
                fields = file.read().rpartition(b')')[2].split()
            found[thread] = int(fields[11]) + int(fields[12])
        except (FileNotFoundError, ProcessLookupError):
            pass
    return found


def watch(program, words, given=os.devnull):
    """The most threads at once, how many of them worked, and how the program ended: its status and standard error."""
    with open(given, 'rb') as data:
        child = subprocess.Popen([program, *words], stdin=data, stdout=subprocess.DEVNULL, stderr=subprocess.PIPE)
    most, worked = 0, {}
    while child.poll() is None:
        try:
            found = threads(child.pid)
        except FileNotFoundError:
            break
        most = max(most, len(found))
        for thread, ticks in found.items():
            worked[thread] = max(ticks, worked.get(thread, 0))
        time.sleep(0.002)
    err = child.communicate()[1]
    return most, sum(ticks > 0 for ticks in worked.values()), (child.returncode, err)


def expect_threads(program, folder, kind, rows, is_input=False):
    """For each way and number of workers so many threads at once, over a file of zeros of so many bytes, or over that
    as standard input."""
    wrong = []
    for how, workers, wanted, size in rows:
        path = sparse(folder, size)
        words = ['make', '--name', 'a', '--kind', kind, '--how', how, '--workers', str(workers)]
        for _ in range(TIMES):
            most, worked, ended = watch(program, words, path) if is_input else watch(program, [*words, path])
            # The first of many workers can be done before the last begins.
            is_right = wanted * 3 / 4 <= most <= wanted and min(wanted, 5) <= worked <= wanted
            if is_right:
                break
        if not is_right:
            wrong.append(f'{how}, {workers} workers\nwanted  {wanted} threads at once, most of which work\n'
                         f'came    {most}, of which {worked} worked')
        if ended != (0, b''):
            wrong.append(f'{how}, {workers} workers\nwanted  status 0 and no line\ncame    {ended}')
    if wrong:
        raise Failure('\n'.join(wrong))


def test_as_many_as_asked_for(program, folder):
    few, many = SIZE // 2, 2 * SIZE
    expect_threads(program, folder, 'v1', [
        ('one', 8, 1, few), ('halves', 1, 1, few), ('halves', 2, 2, few), ('halves', 3, 3, few), ('halves', 7, 7, SIZE),
        ('halves', 64, 64, many), ('board', 1, 1, few), ('board', 2, 2, few), ('board', 7, 7, SIZE),
        ('board', 64, 64, many)])


def test_one_more_that_reads_a_stream(program, folder):
    """Of a hybrid, since all workers have to work where the one that reads is faster than each of them."""
    few, many = SIZE // 4, SIZE // 2
    expect_threads(program, folder, 'hybrid', [
        ('streams', 1, 2, few), ('streams', 2, 3, few), ('streams', 7, 8, many), ('streams', 64, 65, many)])


def test_behind_standard_input(program, folder):
    few = SIZE // 4
    expect_threads(program, folder, 'hybrid', [
        ('streams', 1, 2, few), ('streams', 3, 4, few), ('one', 3, 1, few), ('board', 3, 1, few)], True)


def torrent_of_zeros(folder):
    """The words of a recheck of a file of zeros."""
    path, torrent = sparse(folder, SIZE), folder / 'torrent'
    pieces = sha1(bytes(PIECE_LENGTH)) * (SIZE // PIECE_LENGTH)
    torrent.write_bytes(encode({b'info': {b'length': SIZE, b'name': b'sparse', b'piece length': PIECE_LENGTH,
                                          b'pieces': pieces}}))
    return [str(torrent), path]


def test_a_recheck_has_four(program, folder):
    """Where no number is given; and as many as are asked for."""
    words = torrent_of_zeros(folder)
    for options, wanted in [([], 4), (['--files'], 4), (['--workers', '1'], 1), (['--workers=7'], 7),
                            (['--bad', '--workers=6'], 6)]:
        most, worked, ended = watch(program, ['recheck', *options, *words])
        if (most, worked) != (wanted, wanted):
            raise Failure(f'a recheck {options}\nwanted  {wanted} threads, all of which work\n'
                          f'came    {most}, of which {worked} worked')
        expect_equal('status and standard error', (0, b''), ended)


def reads_at_once(refuser, words, torrent, wanted, first=1):
    """How many reads of the files wait at once where each of them is held, so that each worker waits in its first; and
    how the run ends once all are let go. Reads before the first that is held are made at once."""
    child, go, told = refuser.start(words, Meet('r', first, ALL_LATER, 'hold'), os.devnull)
    count, rest = 0, b''
    try:
        # Once there are as many as are wanted, another one has some time to come.
        while select.select([told], [], [], TIME_LIMIT if count < wanted else 0.3)[0]:
            part = os.read(told, 1 << 16)
            if not part:
                break
            *lines, rest = (rest + part).split(b'\n')
            for met in map(read_met, lines):
                if met.place == torrent:
                    os.write(go, b'g')
                else:
                    count += 1
        os.write(go, bytes(1 << 15))
        while select.select([told], [], [], TIME_LIMIT)[0] and os.read(told, 1 << 16):
            pass
    finally:
        os.close(told)
        os.close(go)
    return count, refuser.ended(wait(words, child), [])


def test_a_recheck_reads_by_as_many_as_asked_for(program, folder):
    """Of 200 units, and of three, of which there are no more to be read at once. In a small part each of the 24 pieces
    is a unit."""
    refuser, torrent = Refuser(program, folder), str(folder / 'torrent')
    for units, rows in [
            (200, [(['--workers', '16', '--files', '--bad'], 16), (['--workers', '64'], 64), ([], 4), (['--files'], 4),
                   (['--workers=64', '--json', '--files'], 64), (['--bad', '--null', '--workers=17'], 17),
                   (['--workers', '1', '--files'], 1)]),
            (3, [(['--workers', '64', '--files'], 3), (['--workers', '2'], 2),
                 (['--workers', '16', '--part', '0/2'], 16)])]:
        pieces = units * 16
        path = sparse(folder, pieces * BLOCK)
        with open(torrent, 'wb') as file:
            file.write(encode({b'info': {b'length': pieces * BLOCK, b'name': b'sparse', b'piece length': BLOCK,
                                         b'pieces': sha1(bytes(BLOCK)) * pieces}}))
        for options, wanted in rows:
            count, ended = reads_at_once(refuser, ['recheck', *options, torrent, path], torrent, wanted)
            if count != wanted:
                raise Failure(f'a recheck {options} of {units} units\nwanted  {wanted} workers that read at once\n'
                              f'came    {count}')
            expect_equal(f'a recheck {options}: status and standard error', (0, b''), (ended.status, ended.err))
            if options in ([], ['--workers', '64']):
                expect_equal(f'a recheck {options}', reference.recheck_lines([True] * pieces), ended.out)


def test_check_after_reads_by_as_many_as_made_it(program, folder):
    """Of 200 units, and of three: a recheck has 16 pieces in a unit, whatever the span."""
    refuser = Refuser(program, folder)
    for units, rows in [(200, [('board', 16, 16), ('one', 8, 1), ('halves', 3, 3), ('streams', 5, 5), ('board', 64, 64),
                               ('board', 1, 1)]),
                        (3, [('board', 64, 3), ('streams', 2, 2)])]:
        pieces = units * 16
        path = sparse(folder, pieces * BLOCK)
        torrent = encode({b'info': {b'length': pieces * BLOCK, b'name': b'sparse', b'piece length': BLOCK,
                                    b'pieces': sha1(bytes(BLOCK)) * pieces}})
        for how, workers, wanted in rows:
            words = ['make', '--name', 'sparse', '--kind', 'v1', '--piece-length', str(BLOCK), '--how', how,
                     '--workers', str(workers), path]
            made = refuser.run(words, Meet('r', 1, ALL_LATER, 'tell'))
            count, ended = reads_at_once(refuser, [*words, '--check-after'], None, wanted, len(made.met) + 1)
            if count != wanted:
                raise Failure(f'--check-after, {how} of {workers} workers, {units} units\n'
                              f'wanted  {wanted} workers that read at once afterwards\ncame    {count}')
            for run in [made, ended]:
                expect_equal(f'{how} of {workers} workers: status, output and standard error', (0, torrent, b''),
                             run[:3])


def test_as_many_as_processors(program, folder):
    """`auto` is as many workers as the program may use processors; without a file to share, and with one, nothing."""
    processors = sorted(os.sched_getaffinity(0))
    torrent, path = torrent_of_zeros(folder)
    for wanted in sorted({1, 2, len(processors)} & set(range(1, len(processors) + 1))):
        for words, most in [(['recheck', '--workers', 'auto', torrent, path], wanted),
                            (['make', '--name', 'a', '--how', 'board', '--workers', 'auto', path], wanted),
                            (['make', '--name', 'a', '--how', 'halves', '--workers=auto', path], wanted),
                            (['make', '--name', 'a', '--how', 'streams', '--workers', 'auto', path], wanted + 1),
                            (['make', '--name', 'a', '--how', 'one', '--workers', 'auto', path], 1)]:
            few = ','.join(map(str, processors[:wanted]))
            came, _, ended = watch('taskset', ['-c', few, program, *words])
            if came != most:
                raise Failure(f'{" ".join(words)}, on {wanted} processors\nwanted  {most} threads\ncame    {came}')
            expect_equal('status and standard error', (0, b''), ended)


def test_one_where_no_number_is_told(program, folder):
    """`auto` where the system tells no number of processors: refuser.c refuses to, and tells of each such call."""
    torrent, path = torrent_of_zeros(folder)
    environment = [f'LD_PRELOAD={built(folder)}', 'REFUSER_KINDS=p', 'REFUSER_FIRST=1', f'REFUSER_LAST={ALL_LATER}',
                   'REFUSER_DOES=refuse', 'REFUSER_TOLD=2']
    for words, wanted in [(['recheck', '--workers', 'auto', torrent, path], 1),
                          (['make', '--name', 'a', '--how', 'board', '--workers', 'auto', path], 1),
                          (['make', '--name', 'a', '--how', 'halves', '--workers=auto', path], 1),
                          (['make', '--name', 'a', '--how', 'streams', '--workers', 'auto', path], 2)]:
        came, _, ended = watch('env', [*environment, preloadable(program), *words])
        if came != wanted:
            raise Failure(f'{" ".join(words)}, on no number of processors\nwanted  {wanted} threads\ncame    {came}')
        expect_equal('status and the calls that were met', (0, b'p -1 -1 \n'), ended)
