"""Faults of the system's calls, which strace puts in at the place that is named; skipped where it cannot.

What the program asks is looked at too: which bytes it reads, how many at once, and what it asks before it refuses.
"""
import itertools
import os
import re
import shutil
import subprocess
from collections import namedtuple

from reference import BLOCK
from rows import ABC, FOLDER_HYBRID
from support import Failure, Skipped, Told, done, expect_equal, expect_told, refused, run

READ = re.compile(r'pread64\(\d+, .*?, (\d+), (\d+)\) += (-?\d+)')
# A call upon a file, which is named by its place, or by its descriptor, behind which `strace -y` tells the place.
CALL = re.compile(r'^(\w+)\((?:AT_FDCWD(?:<[^>]*>)?, "([^"]*)"|\d+<([^>]*)>).*?(?:, (\d+))?\) += (-?\d+)', re.M)
Call = namedtuple('Call', 'name file asked came')


def traced(program, words, place, inject, log, data=b'', trace='all'):
    """Runs the program with a fault in the calls upon one place, upon any in a list, or upon whatever there is: what
    came, and the log of such calls."""
    strace = shutil.which('strace')
    if not strace:
        raise Skipped('it needs strace')
    for old in log.parent.glob(log.name + '*'):
        old.unlink()
    # Each thread has a log of its own, so that no line of one is cut by another's.
    command = [strace, '-qq', '-ff', '-s', '8', '-o', str(log), '-e', f'trace={trace}']
    if isinstance(place, list):
        command += ['-y'] + [word for one in place for word in ('-P', str(one))]
    elif place:
        command += ['-P', str(place)]
    for one in inject:
        command += ['-e', f'inject={one}']
    done_run = subprocess.run(command + [program, *map(str, words)], input=data, capture_output=True, timeout=100,
                              check=False)
    if b'strace: ' in done_run.stderr:
        raise Skipped(f'strace cannot trace here: {done_run.stderr[:200]!r}')
    return Told(done_run.returncode, done_run.stdout, done_run.stderr), ''.join(
        one.read_text(errors='replace') for one in log.parent.glob(log.name + '*'))


def lay_out(folder):
    files = folder / 'f'
    files.mkdir()
    (files / 'a').write_bytes(b'ab')
    (files / 'b').write_bytes(b'c')
    return files


def expect_faults(program, folder, words, place, rows):
    """Each of these faults, put in at a place, is told so; all that are not are named."""
    failures = []
    for inject, line in rows:
        told, _ = traced(program, words, place, [inject], folder / 'log')
        try:
            expect_told([str(word) for word in words], refused(line, 3), told, f'with {inject} at {place}\n')
        except Failure as failure:
            failures.append(str(failure))
    if failures:
        raise Failure('\n'.join(failures))


# What the system is asked, call by call, to find the two files of PATH: what PATH is, twice; what is held open, and
# what is at its place in /proc; what each file is; and at last what is held open, and what PATH is, once more.
FOUND = 8


def test_of_make(program, folder):
    """Of a file below PATH the system is asked at each read, before it is opened and once it is. (It is found by the
    folder that is held open, and not by this place.) Calls are counted for each thread: by one worker, both questions
    are of one thread."""
    files = lay_out(folder)
    errors = ['EIO', 'EACCES', 'ETIMEDOUT', 'EAGAIN', 'EINTR', 'ELOOP', 'EPERM', 'ENOENT']
    asked = [(f'statx:error={error}:when={when}', 'E1 Read file 1 at 0')
             for when in (1, 2) for error in errors if error != 'ENOENT']
    asked += [(f'statx:error=ENOENT:when={when}', 'E2 Changed file 1') for when in (1, 2)]
    rows = [(f'pread64:error={error}:when=1', 'E1 Read file 1 at 0')
             for error in ['EIO', 'EAGAIN', 'EINTR', 'ETIMEDOUT', 'EISDIR']]
    rows += [(f'openat:error={error}:when=1', 'E1 Read file 1 at 0') for error in ['EACCES', 'EMFILE', 'ETIMEDOUT']]
    rows += [(f'openat:error={error}:when=1', 'E2 Changed file 1') for error in ['ENOENT', 'ENOTDIR']]
    rows += [('pread64:retval=0:when=1', 'E2 Changed file 1')]
    for how in [[], ['--how', 'halves', '--workers', '2', '--span', '1'], ['--kind', 'v1'], ['--kind', 'hybrid'],
                ['--how', 'board', '--workers', '2', '--span', '1']]:
        out = folder / 'out'
        out.write_bytes(b'old')
        words = ['make', '--name', 'f', *how, '--out', out, files]
        expect_faults(program, folder, words, files / 'b', rows if how else asked + rows)
        expect_equal('the old file', b'old', out.read_bytes())
    expect_faults_as_found(program, folder, ['make', '--name', 'f', files])


def expect_faults_as_found(program, folder, words):
    """Each fault of what is asked to find the files is told as one of PATH."""
    expect_faults(program, folder, words, None, [
        (f'statx:error={error}:when={number}', 'F4 System')
        for number in range(2, FOUND + 1) for error in ['EIO', 'ETIMEDOUT', 'EINTR', 'ELOOP']])
    expect_faults(program, folder, words, None, [
        (f'statx:error={error}:when={number}', 'F4 System')
        for number in range(FOUND - 3, FOUND + 1) for error in ['EACCES', 'ENOENT']])
    expect_faults(program, folder, words, None, [
        ('getdents64:error=EIO:when=1', 'F4 System'), ('getdents64:error=EIO:when=2', 'F4 System')])


def test_too_few_descriptors(program, folder):
    """A fault of the system, and not of a file that has none: the second line has the reason."""
    files = lay_out(folder)
    words = ['make', '--explain', '--name', 'f', files]
    told, _ = traced(program, words, None, ['openat:error=EMFILE'], folder / 'log')
    if told.status == 127:
        raise Skipped('it needs a program that loads no library')
    line = b'F4 System\ntor: %s: Too many open files (os error 24)' % os.fsencode(files)
    expect_told(['make', '--explain', '--name', 'f', str(files)], refused(line, 3), told)


def test_of_streams(program, folder):
    """A file that is read once is opened when its turn comes: what cannot be, and what cannot be read, is told with how
    much of it came."""
    files = lay_out(folder)
    rows = [(f'statx:error={error}:when={when}', 'E1 Read file 1 at 0')
            for when in (1, 2) for error in ['EIO', 'EACCES', 'ENOENT', 'ENOTDIR', 'ETIMEDOUT', 'EINTR', 'ELOOP']]
    rows += [(f'openat:error={error}:when=1', 'E1 Read file 1 at 0')
             for error in ['EACCES', 'EMFILE', 'ENOENT', 'ETIMEDOUT']]
    rows += [(f'read:error={error}:when={when}', f'E1 Read file 1 at {when - 1}')
             for error in ['EIO', 'EAGAIN', 'EINTR', 'ETIMEDOUT', 'EISDIR'] for when in [1, 2]]
    # It is told where it has fewer bytes than when it was found.
    rows += [('read:retval=0:when=1', 'E1 Read file 1 at 0')]
    for more in [[], ['--workers', '2', '--span', '1'], ['--kind', 'v1'], ['--kind', 'hybrid', '--workers', '64']]:
        out = folder / 'out'
        out.write_bytes(b'old')
        words = ['make', '--name', 'f', '--how', 'streams', *more, '--out', out, files]
        expect_faults(program, folder, words, files / 'b', rows)
        expect_equal('the old file', b'old', out.read_bytes())
    expect_faults_as_found(program, folder, ['make', '--name', 'f', '--how', 'streams', files])


def test_a_scan_ends_at_its_first_refusal(program, folder):
    """Nothing behind what is refused is asked for, however many files there are."""
    files = lay_out(folder)
    (files / 'a0').symlink_to('a')
    for number in range(100):
        (files / f'b{number:02}').write_bytes(b'')
    told, log = traced(program, ['make', '--name', 'f', files], None, [], folder / 'log', trace='statx,openat')
    expect_told(['make'], refused('F2 NotRegular'), told)
    expect_equal('names that were asked for', {'a', 'a0'}, set(re.findall(r'[/"]([ab]\d*)"', log)))


def calls_upon(folder):
    """The calls of each thread that asked something of the files: a list for each such thread."""
    threads = []
    for log in folder.glob('log*'):
        found = CALL.findall(log.read_text(errors='replace'))
        if found:
            threads.append([Call(name, os.path.basename(place or opened), int(asked or 0), int(came))
                            for name, place, opened, asked, came in found])
    return threads


def expect_read_once(words, calls, lengths, opened):
    """That file after file was opened, each byte of it read once, at least 64 KiB at a time where there are so many,
    and closed. `opened` has the calls that open a file: it is asked what it is before it is opened, and one below PATH
    once more when it is open."""
    turns = [(name, list(turn)) for name, turn in itertools.groupby(calls, lambda call: call.file)]
    expect_equal(f'{words}: the turns of files', list(lengths), [name for name, _ in turns])
    for name, turn in turns:
        reads = [call for call in turn if call.name == 'read']
        small = [call for call in reads if call.asked < 65536 and call.came > 3]
        if small:
            raise Failure(f'{words}\nwanted  of {name} at least 65536 at a time\ncame    {small[:9]}')
        expect_equal(f'{words}: calls upon {name}', [*opened, *['read'] * len(reads), 'close'],
                     [call.name for call in turn])
        expect_equal(f'{words}: bytes of {name}, and of its last read', (lengths[name], 0),
                     (sum(call.came for call in reads), reads[-1].came))


def expect_streams(program, folder, lengths, path):
    """Makes torrents of these files by workers behind a stream, whose calls upon them are looked at."""
    for more in [[], ['--kind', 'v1'], ['--kind', 'hybrid'], ['--workers', '3', '--span', '1']]:
        words = ['make', '--name', 'f', '--how', 'streams', *more, str(path)]
        places = [path] if path.is_file() else [path / name for name in lengths]
        told, _ = traced(program, words, places, [], folder / 'log')
        expect_equal(f'{words}: status', 0, told.status)
        threads = calls_upon(folder)
        expect_equal(f'{words}: threads that read', 1, len(threads))
        # PATH itself is found by its place.
        calls = threads[0][1:] if path.is_file() else threads[0]
        expect_read_once(words, calls, lengths, ['statx', 'openat', *['statx'] * path.is_dir()])


def test_reads_of_a_stream(program, folder):
    (folder / 'large').write_bytes(bytes(5 << 20) + b'end')
    expect_streams(program, folder, {'large': (5 << 20) + 3}, folder / 'large')


def test_streams_are_read_in_order(program, folder):
    """By one thread, whatever the number of workers: at most one file is open, and none is read twice."""
    lengths = {'a': 2, 'b': 0, 'c': (5 << 20) + 3, 'd': 1, 'e': 400_000}
    files = folder / 'files'
    files.mkdir()
    for name, length in lengths.items():
        (files / name).write_bytes(bytes(length))
    expect_streams(program, folder, lengths, files)


def test_a_fault_ends_a_stream(program, folder):
    """It is told with the bytes that came; nothing is read after it, and no later file is opened."""
    files = folder / 'files'
    files.mkdir()
    for name, length in [('a', 2), ('b', 400_000), ('c', 1)]:
        (files / name).write_bytes(bytes(length))
    places = [files / name for name in 'abc']
    # Two reads of a: its bytes, and its end. In version 1 its bytes stand before those of b in one unit.
    for kind, start in [('v1', 2 * 65536 - 2), ('v2', 2 * 65536), ('hybrid', 2 * 65536)]:
        for workers in ['1', '2', '64']:
            words = ['make', '--name', 'f', '--kind', kind, '--piece-length', str(BLOCK), '--span', '4', '--how',
                     'streams', '--workers', workers, str(files)]
            told, _ = traced(program, words, places, ['read:error=EIO:when=5'], folder / 'log')
            expect_told(words, refused(f'E1 Read file 1 at {start}', 3), told)
            calls = [(call.name, call.file) for thread in calls_upon(folder) for call in thread]
            wanted = [('openat', 'b'), ('statx', 'b'), *[('read', 'b')] * 3, ('close', 'b')]
            expect_equal(f'{words}: the last calls', wanted, calls[-6:])


def test_of_out_beside_a_file(program, folder):
    """Whether FILE of `--out` is PATH itself, a file, the system has to tell."""
    path, out = folder / 'abc', folder / 'out'
    path.write_bytes(b'abc')
    out.write_bytes(b'old')
    expect_faults(program, folder, ['make', '--name', 'a', '--out', out, path], path, [
        (f'statx:error={error}:when=2', 'F4 System') for error in ['EACCES', 'EIO', 'ETIMEDOUT', 'EINTR']])
    expect_equal('the old file', b'old', out.read_bytes())


def test_of_out_that_is_not_kept(program, folder):
    """What goes to FILE is synced. A fault of that is a write fault, unless the file system cannot be asked."""
    files = lay_out(folder)
    plan, torrent, out = (str(folder / name) for name in ('plan', 'torrent', 'out'))
    commands = [['make', '--name', 'f', files], ['plan', '--name', 'f', files],
                ['make', '--plan', plan, '--part', '0/1', files], ['edit', '--announce', 'u', torrent]]
    for words, place in [(commands[0], torrent), (commands[1], plan)]:
        expect_equal(f'{words}: status', 0, run(program, [*map(str, words), '--out', place]).status)
    for words in commands:
        words = [*words, '--out', out]
        expect_faults(program, folder, words, None, [
            (f'fsync:error={error}:when=1', 'write fault after 0 bytes') for error in ['EIO', 'ENOSPC', 'EDQUOT']])
        told, _ = traced(program, words, None, ['fsync:error=EINVAL:when=1'], folder / 'log')
        expect_told([str(word) for word in words], done(), told, 'where nothing can be synced\n')
        # The system says that it took all bytes, and has none when the file is closed.
        expect_faults(program, folder, words, None, [
            (f'write:retval={len(run(program, [*map(str, words[:-2])]).out)}:when=1', 'write fault after 0 bytes')])


def test_of_recheck(program, folder):
    files = lay_out(folder)
    torrent = folder / 'torrent'
    torrent.write_bytes(FOLDER_HYBRID)
    rows = [(f'statx:error={error}:when=1', 'C1 Read file 1 at length')
            for error in ['EIO', 'EACCES', 'ETIMEDOUT', 'EAGAIN', 'EINTR', 'ELOOP']]
    rows += [(f'pread64:error={error}:when=1', 'C1 Read file 1 at 0')
             for error in ['EIO', 'EAGAIN', 'EINTR', 'ETIMEDOUT']]
    rows += [(f'openat:error={error}:when=1', 'C1 Read file 1 at 0') for error in ['EACCES', 'EMFILE', 'ENOENT']]
    # Whichever worker reads the file: calls are counted for each thread.
    rows += [('pread64:retval=0:when=1', 'C2 Changed file 1'), ('statx:error=ENOENT:when=2', 'C2 Changed file 1'),
             ('statx:error=ENOENT:when=2+', 'C2 Changed file 1')]
    for options in [[], ['--files'], ['--bad', '--null'], ['--bad', '--json']]:
        expect_faults(program, folder, ['recheck', *options, torrent, files], files / 'b', rows)
    told, _ = traced(program, ['recheck', torrent, files], files / 'b', ['statx:error=ENOENT'], folder / 'log')
    expect_told(['recheck'], done(b'pieces 1 of 2\nbits 80\n', 1), told)


def test_of_recheck_of_one_file(program, folder):
    """The system is asked first what PATH is, which may be the file or a folder: where it does not tell, the file is
    looked for below PATH, and a file has none below it."""
    path, torrent = folder / 'abc', folder / 'torrent'
    path.write_bytes(b'abc')
    torrent.write_bytes(ABC)
    errors = ['EIO', 'EACCES', 'ETIMEDOUT', 'EINTR', 'ELOOP']
    rows = [(f'statx:error={error}:when=2', 'C1 Read file 0 at length') for error in errors]
    rows += [('pread64:error=EIO:when=1', 'C1 Read file 0 at 0'), ('pread64:retval=0:when=1', 'C2 Changed file 0')]
    for options in [[], ['--files', '--json']]:
        expect_faults(program, folder, ['recheck', *options, torrent, path], path, rows)
    for error in ['ENOENT', 'ENOTDIR', *errors]:
        told, _ = traced(program, ['recheck', torrent, path], path, [f'statx:error={error}:when=1'], folder / 'log')
        expect_told(['recheck'], done(b'pieces 0 of 1\nbits 00\n', 1), told, f'with {error}\n')


def test_of_check_after(program, folder):
    """What the system does not tell when the files are looked at once more is told as a recheck tells it; nothing goes
    out, and an old file stays."""
    path, out = folder / 'abc', folder / 'out'
    path.write_bytes(b'abc')
    out.write_bytes(b'old')
    words = ['make', '--name', 'a', '--piece-length', str(BLOCK), '--workers', '1', '--check-after', '--out', out, path]
    expect_faults(program, folder, words, path, [
        ('pread64:error=EIO:when=1', 'E1 Read file 0 at 0'), ('pread64:error=EIO:when=2', 'C1 Read file 0 at 0'),
        ('pread64:retval=0:when=2', 'C2 Changed file 0')])
    told, _ = traced(program, words, path, ['statx:error=ENOENT:when=6+'], folder / 'log')
    expect_told([str(word) for word in words], refused('not as made: 0 of 1 pieces'), told)
    expect_equal('the old file', b'old', out.read_bytes())


def test_of_inputs(program, folder):
    """A torrent, a proof or standard input that cannot be read to its end: an interrupted read is a fault too."""
    torrent = folder / 'torrent'
    torrent.write_bytes(ABC)
    root = ABC[56:88].hex()
    for words in [['check', torrent], ['magnet', torrent], ['prove', torrent, '0', '0'], ['recheck', torrent, folder],
                  ['verify', root, '3', '16384', torrent]]:
        expect_faults(program, folder, words, torrent, [
            (f'{call}:error={error}:when={when}', 'read fault')
            for call, error, when in [('read', 'EIO', 1), ('read', 'EIO', 2), ('read', 'EINTR', 1),
                                      ('read', 'EINTR', 2), ('read', 'EAGAIN', 2), ('read', 'ETIMEDOUT', 1),
                                      ('openat', 'EACCES', 1), ('openat', 'EMFILE', 1)]])
    for words in [['--name', 'a'], ['--name', '..'], ['--name', 'a', '--piece-length', '5'],
                  ['--name', 'a', '--out', folder / 'o'], ['--name', 'a', '--how', 'streams', '--workers', '3'],
                  ['--name', 'a', '--how', 'streams', '--kind', 'hybrid', '--out', folder / 'o']]:
        for inject in ['read:error=EIO:when=2', 'read:error=EINTR:when=1', 'read:error=EINTR:when=2']:
            with open(torrent, 'rb') as data:
                told = told_of_input(program, ['make', *words], torrent, inject, folder / 'log', data)
            expect_told(['make', *map(str, words)], refused('read fault', 3), told, f'with {inject}\n')
    expect_equal('nothing is made', False, (folder / 'o').exists())


def test_of_reasons(program, folder):
    """With `--explain` a second line has the system's reason of a read that failed in the middle, and what was read."""
    torrent, files, eio = folder / 'torrent', folder / 'files', 'Input/output error (os error 5)'
    torrent.write_bytes(ABC)
    files.mkdir()
    (files / 'b').write_bytes(b'abc')
    words = ['check', '--explain', torrent]
    told, _ = traced(program, words, torrent, ['read:error=EIO:when=2'], folder / 'log')
    expect_told(['check'], refused(f'read fault\ntor: {torrent}: {eio}', 3), told)
    words = ['make', '--name', 'a', '--explain']
    with open(torrent, 'rb') as data:
        told = told_of_input(program, words, torrent, 'read:error=EIO:when=2', folder / 'log', data)
    expect_told(words, refused(f'read fault\ntor: standard input: {eio}', 3), told)
    words = ['make', '--name', 'a', '--workers', '1', '--check-after', '--explain', files]
    told, _ = traced(program, words, files / 'b', ['pread64:error=EIO:when=2'], folder / 'log')
    expect_told(['make', '--check-after'], refused(f'C1 Read file 0 at 0\ntor: file 0 is b: {eio}', 3), told)


def told_of_input(program, words, place, inject, log, data):
    command = ['strace', '-qq', '-f', '-o', str(log), '-P', str(place), '-e', f'inject={inject}', program]
    done_run = subprocess.run(command + [str(word) for word in words], stdin=data, capture_output=True, check=False)
    return Told(done_run.returncode, done_run.stdout, done_run.stderr)


def test_of_writes(program, folder):
    """A write that takes one byte is gone on with; one that takes none, or has any fault, ends it."""
    (folder / 'abc').write_bytes(b'abc')
    out = folder / 'out'
    words = ['make', '--name', 'a', '--piece-length', '16384', '--out', str(out), str(folder / 'abc')]
    told, log = traced(program, words, out, ['write:retval=1'], folder / 'log', trace='write')
    # No byte is there, though the system says of each that it was taken.
    expect_told(words, refused('write fault after 0 bytes', 3), told, 'where a write takes one byte\n')
    asked = [int(count) for count in re.findall(r'write\(\d+, .*?, (\d+)\) += 1', log)]
    if sum(asked[:1]) < 158 or asked != sorted(asked, reverse=True) or asked[-1] != 1:
        raise Failure(f'wanted writes of 158, 157, .. 1 bytes, came {asked}')
    expect_faults(program, folder, words, out, [
        ('write:retval=0:when=1', 'write fault after 0 bytes'),
        ('write:error=EINTR:when=1', 'write fault after 0 bytes'),
        ('write:error=ENOSPC:when=1', 'write fault after 0 bytes')])


def test_places_of_reads(program, folder):
    """Each byte is read once, at least 64 KiB at a time where there are so many, and a fault tells its place."""
    path = folder / 'large'
    path.write_bytes(bytes(5 << 20) + b'end')
    for words in [['--how', 'one'], ['--how', 'one', '--kind', 'v1'], ['--kind', 'hybrid', '--piece-length', '1048576'],
                  ['--how', 'halves', '--workers', '3', '--span', '1'], ['--piece-length', '4194304', '--kind', 'v1'],
                  ['--how', 'board', '--workers', '3', '--span', '1']]:
        words = ['make', '--name', 'a', *words, str(path)]
        told, log = traced(program, words, path, [], folder / 'log', trace='pread64')
        expect_equal(f'{words}: status', 0, told.status)
        reads = sorted((int(start), int(asked), int(came)) for asked, start, came in READ.findall(log))
        at = 0
        for start, asked, came in reads:
            if start != at or came < 1 or (asked < 65536 and came > 3):
                raise Failure(f'{words}\nwanted  each byte once, and at least 65536 at a time\ncame    {reads}')
            at += came
        expect_equal(f'{words}: bytes that were read', (5 << 20) + 3, at)
        if '--workers' in words or len(reads) == 1:
            continue
        told, log = traced(program, words, path, ['pread64:error=EIO:when=2'], folder / 'log', trace='pread64')
        expect_told(words, refused(f'E1 Read file 0 at {reads[1][0]}', 3), told)


def test_what_is_asked_before_a_refusal(program, folder):
    """A refusal of the order comes before a file is opened. It was found by the folder that is held open."""
    files = lay_out(folder)
    for words in [['--piece-length', '5'], ['--how', 'halves', '--workers', '65'], ['--span', '3'],
                  ['--how', 'board', '--workers', '65'], ['--how', 'streams', '--workers', '65'],
                  ['--how', 'streams', '--piece-length', '1073741824']]:
        words = ['make', '--name', 'f', *words, files]
        _, log = traced(program, words, files / 'a', [], folder / 'log')
        expect_equal(f'{words}: calls upon a file', [], [line.split('(')[0] for line in log.splitlines()])
    words = ['make', '--name', '..', files]
    _, log = traced(program, words, files, [], folder / 'log')
    expect_equal(f'{words}: calls upon PATH', 0, len(log.splitlines()))
    torrent = folder / 'torrent'
    torrent.write_bytes(b'de')
    _, log = traced(program, ['recheck', torrent, files], files, [], folder / 'log')
    expect_equal('a recheck by no torrent: calls upon PATH', 0, len(log.splitlines()))


def test_pieces_that_are_not_there_are_not_read(program, folder):
    """Of a hybrid of two files, one is too short: not a byte of it is read; nor past its end where it is too long."""
    files = lay_out(folder)
    torrent = folder / 'torrent'
    torrent.write_bytes(FOLDER_HYBRID)
    some, all_lines = b'pieces 1 of 2\nbits 40\n', b'pieces 2 of 2\nbits c0\n'
    short, there = b'short 0 1 1 2 a\n', b'whole 1 1 1 1 b\n'
    for options, out in [([], some), (['--files'], some + short + there), (['--bad'], some + short),
                         (['--bad', '--null'], b'a\0')]:
        (files / 'a').write_bytes(b'a')
        expect_reads(program, folder, ['recheck', *options, torrent, files], done(out, 1), [])
    for options, out in [([], all_lines), (['--files'], all_lines + b'whole 1 1 100002 2 a\n' + there)]:
        (files / 'a').write_bytes(b'ab' + bytes(100_000))
        expect_reads(program, folder, ['recheck', *options, torrent, files], done(out), [('2', '0', '2')])
    (files / 'a').unlink()
    missing = b'missing 0 1 - 2 a\n'
    expect_reads(program, folder, ['recheck', '--files', torrent, files], done(some + missing + there, 1), [])


def expect_reads(program, folder, words, wanted, reads):
    """What a recheck tells, and the bytes that it asks of the first file: how many, from where, and how many came."""
    told, log = traced(program, words, folder / 'f' / 'a', [], folder / 'log')
    expect_told(list(map(str, words)), wanted, told)
    expect_equal(f'{words}: reads', reads, READ.findall(log))
