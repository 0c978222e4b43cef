"""What a terminal shows, and nothing else does: the line of progress at standard error; names without characters that
drive it, or by which it shows a line in another order."""
import json
import os
import random
import re
import select
import signal
import subprocess
import tempfile
import time
import tty

import reference
from reference import BLOCK, Order, judge, sha256
from rows import ABC
from sizes import ZERO_LEAF, blocks_of, v2_of
from support import Failure, Skipped, Told, done, expect, expect_equal

UNITS = {'B': 1, 'KiB': 1 << 10, 'MiB': 1 << 20, 'GiB': 1 << 30, 'TiB': 1 << 40}
AMOUNT = rb'(?:(\d+) B|(\d+\.\d) (KiB|MiB|GiB|TiB))'
TIME = rb'(?:(\d+) h (\d+) min|(\d+) min (\d+) s|(\d+) s)'
LINE = re.compile(rb'\r' + AMOUNT + rb' of ' + AMOUNT + rb', ' + AMOUNT + rb'/s, ' + TIME + rb' left\x1b\[K')
ERASED = b'\r\x1b[K'
CHANGED = b'it changed while it was read, or another stands in its place: try again when none writes to it'
# Seconds from one print to the next.
INTERVAL = 0.25


def terminal():
    try:
        master, slave = os.openpty()
    except OSError as error:
        raise Skipped(f'no pseudo-terminal: {error}') from None
    tty.setraw(slave)
    return master, slave


def on_one_processor():
    """For a process that begins: several workers then take as long as one, so that lines come of a smaller file too."""
    os.sched_setaffinity(0, {random.choice(sorted(os.sched_getaffinity(0)))})


def watch(program, words, meanwhile=None, lines=None, **streams):
    """Runs the program with a terminal at standard error, on one processor: what came there, part by part with its
    time, and the run. After so many lines it is stopped; `meanwhile` is done once, after the first."""
    master, slave = terminal()
    start = time.monotonic()
    output = tempfile.TemporaryFile()
    child = subprocess.Popen([program, *words], stderr=slave, stdout=output, preexec_fn=on_one_processor, **streams)
    os.close(slave)
    parts = []
    while True:
        ready, _, _ = select.select([master], [], [], 120)
        if not ready:
            child.kill()
            raise Failure(f'nothing comes for 120 seconds: {words}')
        try:
            part = os.read(master, 65536)
        except OSError:
            break
        if not part:
            break
        parts.append((time.monotonic() - start, part))
        if meanwhile:
            meanwhile()
            meanwhile = None
        if lines and len(parts) == lines:
            child.send_signal(signal.SIGKILL)
    child.wait()
    os.close(master)
    output.seek(0)
    shown = b''.join(part for _, part in parts)
    return parts, Told(child.returncode, output.read(), shown)


def amount(groups):
    whole, number, unit = groups
    return (int(whole), 0) if whole else (float(number) * UNITS[unit.decode()], UNITS[unit.decode()] / 10)


def seconds(groups):
    """Seconds that are shown, and how many more there may be."""
    hours, minutes, more, rest, alone = (int(group) if group else None for group in groups)
    if hours is not None:
        if hours == 0 or minutes > 59:
            raise Failure(f'no time: {hours} h {minutes} min')
        return hours * 3600 + minutes * 60, 60
    if more is not None:
        if not 0 < more < 60 or rest > 59:
            raise Failure(f'no time: {more} min {rest} s')
        return more * 60 + rest, 1
    if alone > 59:
        raise Failure(f'no time: {alone} s')
    return alone, 1


def check_line(line, at, total):
    """That one line is true to itself and to the clock: answers how many bytes it says were read, and the least and the
    most seconds after which it says so."""
    match = LINE.fullmatch(line)
    if not match:
        raise Failure(f'no line of progress: {line!r}')
    groups = match.groups()
    read, read_step = amount(groups[0:3])
    whole, whole_step = amount(groups[3:6])
    speed, speed_step = amount(groups[6:9])
    left, left_step = seconds(groups[9:14])
    if not whole <= total <= whole + whole_step or read > total:
        raise Failure(f'not of {total} bytes: {line!r}')
    least = (total - read - read_step) / (speed + speed_step)
    most = (total - read) / max(speed, 1)
    if not least - left_step - 1 <= left <= most + 1:
        raise Failure(f'not the time that is left, {least} to {most} seconds: {line!r}')
    # The clock of this test began before the program's, and each line is read after it was printed.
    if speed + speed_step < read / (at + 0.5) * 0.9:
        raise Failure(f'{read} bytes after {at} seconds: {line!r}')
    return read, (read / (speed + speed_step), (read + read_step) / max(speed, 1))


def check_lines(parts, shown, total, ending):
    """That so many lines came, the next ones after a quarter of a second each, and then the ending. When a line was
    printed it tells itself: this test may read it late, and then two at once."""
    if not shown.endswith(ending):
        raise Failure(f'does not end in {ending!r}: {shown[-300:]!r}')
    lines = LINE.findall(shown)
    rest = LINE.sub(b'', shown)
    if rest != ending or not lines:
        raise Failure(f'wanted lines of progress and {ending!r}, came {shown!r}')
    last, before, count = 0, 0.0, 0
    for at, part in parts:
        for match in LINE.finditer(part):
            read, (least, most) = check_line(match[0], at, total)
            if read < last:
                raise Failure(f'fewer bytes than before: {match[0]!r}')
            last = read
            count += 1
            if most - before < INTERVAL or at < INTERVAL * count:
                raise Failure(f'a line {most - before} seconds after the last, the {count}th after {at}: {match[0]!r}')
            before = least
    return before


def sparse(folder, size, name='sparse'):
    place = folder / name
    with open(place, 'wb') as file:
        try:
            file.truncate(size)
        except OSError as error:
            raise Skipped(f'no file of {size} bytes: {error}') from None
    return str(place)


SIZE = (1 << 30) + 12345


def torrent_of_zeros(size, piece_length):
    """The v2 torrent of one file f of so many zeros."""
    return v2_of(size, blocks_of(size, [], ZERO_LEAF, sha256), piece_length)[0]


def test_make_and_recheck_show_it(program, folder):
    path = sparse(folder, SIZE)
    words = ['make', '--name', 'f', '--piece-length', '1048576', path]
    made = torrent_of_zeros(SIZE, 1 << 20)
    expect(program, words, done(made), note='without a terminal\n')
    parts, told = watch(program, words)
    expect_equal('status', 0, told.status)
    expect_equal('the torrent on standard output', True, told.out == made)
    check_lines(parts, told.err, SIZE, ERASED)
    torrent = folder / 'torrent'
    torrent.write_bytes(made)
    words = ['recheck', str(torrent), path]
    wanted = b'pieces 1025 of 1025\nbits ' + b'ff' * 128 + b'80\n'
    parts, told = watch(program, words)
    expect_equal('status and output', (0, wanted), (told.status, told.out))
    check_lines(parts, told.err, SIZE, ERASED)
    expect(program, words, done(wanted))


def test_of_a_folder_by_workers(program, folder):
    place = folder / 'files'
    place.mkdir()
    sizes = [1 << 29, 0, 3, (1 << 29) + 1]
    for i, size in enumerate(sizes):
        sparse(place, size, str(i))
    parts, told = watch(program, ['make', '--name', 'f', '--how', 'halves', '--workers', '3', str(place)])
    expect_equal('status', 0, told.status)
    check_lines(parts, told.err, sum(sizes), ERASED)


def passes_of(parts):
    """What came of each pass, which ends as its line is erased, and of what follows the last."""
    passes = [[]]
    for at, part in parts:
        *fronts, rest = part.split(ERASED)
        for front in fronts:
            passes[-1].append((at, front + ERASED))
            passes.append([])
        if rest:
            passes[-1].append((at, rest))
    return passes


def test_of_both_passes_of_check_after(program, folder):
    """The line counts from 0 again where the files are looked at once more, and is erased after each pass. The input is
    a terminal too, as where the command is typed."""
    path = sparse(folder, SIZE)
    made = torrent_of_zeros(SIZE, 1 << 20)
    typed, keyboard = terminal()
    for more in [[], ['--how', 'streams', '--workers', '2']]:
        words = ['make', '--name', 'f', '--piece-length', '1048576', '--check-after', *more, path]
        parts, told = watch(program, words, stdin=keyboard)
        expect_equal(f'{words}: status, and whether the torrent comes', (0, True), (told.status, told.out == made))
        *passes, rest = passes_of(parts)
        expect_equal(f'{words}: passes that show it, and what follows', (2, []), (len(passes), rest))
        begun = 0.0
        for lines in passes:
            timed = [(at - begun, part) for at, part in lines]
            begun += check_lines(timed, b''.join(part for _, part in lines), SIZE, ERASED)
    os.close(typed)
    os.close(keyboard)


def test_of_streams(program, folder):
    """The line has the bytes of all files, though no length is asked to read them."""
    place = folder / 'files'
    place.mkdir()
    sizes = [1 << 29, 0, 3, (1 << 29) + 1]
    for i, size in enumerate(sizes):
        sparse(place, size, str(i))
    parts, told = watch(program, ['make', '--name', 'f', '--how', 'streams', '--workers', '2', str(place)])
    check_lines(parts, told.err, sum(sizes), ERASED)
    expect_equal('status', 0, told.status)


def test_of_a_stream_that_cannot_be_read_on(program, folder):
    """A file that goes away before its turn: the line is gone before the fault is told, and no torrent is made."""
    place = folder / 'files'
    place.mkdir()
    size = 1 << 30
    sparse(place, size, 'a')
    (place / 'b').write_bytes(b'five5')
    words = ['make', '--name', 'f', '--how', 'streams', '--workers', '2', str(place)]
    parts, told = watch(program, words, meanwhile=(place / 'b').unlink)
    expect_equal('status and output', (3, b''), (told.status, told.out))
    check_lines(parts, told.err, size + 5, ERASED + b'tor: E1 Read file 1 at 0\n'
                + b'tor: file 1: %s\n' % CHANGED)


def test_of_a_stream_that_shrinks_or_grows(program, folder):
    """It is just what was read, though the line tells of the length that it had first."""
    size = 1 << 30
    words = ['make', '--name', 'f', '--piece-length', '1048576', '--how', 'streams', '--workers', '2']
    path = sparse(folder, size)
    parts, told = watch(program, [*words, path], meanwhile=lambda: os.truncate(path, 5))
    expect_equal('status', 0, told.status)
    check_lines(parts, told.err, size, ERASED)
    length = judge(told.out).files[0].length
    expect_equal(f'the torrent of the {length} bytes that were read', True,
                 0 < length <= size and told.out == torrent_of_zeros(length, 1 << 20))
    path = sparse(folder, size)
    _, told = watch(program, [*words, path], meanwhile=lambda: os.truncate(path, size + 12345))
    expect_equal('status', 0, told.status)
    expect_equal('the torrent of a file that has grown', True,
                 told.out == torrent_of_zeros(size + 12345, 1 << 20))


def test_only_on_standard_error(program, folder):
    """Not a byte comes where the input and the output are terminals, and standard error is none."""
    path = sparse(folder, 1 << 30)
    made = torrent_of_zeros(1 << 30, 1 << 20)
    for more, torrent in [([], made), (['--out', str(folder / 't')], b'')]:
        words = ['make', '--name', 'f', '--piece-length', '1048576', *more, path]
        master, slave = terminal()
        err = open(folder / 'err', 'wb')
        child = subprocess.Popen([program, *words], stdin=slave, stdout=slave, stderr=err)
        os.close(slave)
        out = b''
        while True:
            try:
                part = os.read(master, 65536)
            except OSError:
                break
            out += part
        expect_equal('status', 0, child.wait())
        expect_equal('standard error', b'', (folder / 'err').read_bytes())
        expect_equal('standard output, a terminal', torrent, out)
        os.close(master)


def test_erased_before_another_line(program, folder):
    """A file that is cut while it is read: the line is gone before the fault is told, and no torrent is made."""
    size = 6 << 30
    path = sparse(folder, size)
    parts, told = watch(program, ['make', '--name', 'a', path], meanwhile=lambda: os.truncate(path, 5))
    expect_equal('status and output', (3, b''), (told.status, told.out))
    name = os.path.basename(path).encode()
    check_lines(parts, told.err, size, ERASED + b'tor: E2 Changed file 0\ntor: file 0 is %s: %s\n' % (name, CHANGED))


def test_recheck_of_a_cut_file(program, folder):
    size = 6 << 30
    path = sparse(folder, size)
    torrent = folder / 'torrent'
    pieces = 6
    torrent.write_bytes(b'd4:infod6:lengthi%de4:name1:a12:piece lengthi1073741824e6:pieces120:' % size
                        + bytes(20 * pieces) + b'ee')
    parts, told = watch(program, ['recheck', str(torrent), path], meanwhile=lambda: os.truncate(path, 5))
    expect_equal('status and output', (3, b''), (told.status, told.out))
    check_lines(parts, told.err, size, ERASED + b'tor: C2 Changed file 0\ntor: file 0 is a: %s\n' % CHANGED)


def test_recheck_of_a_longer_file(program, folder):
    """Of a file nothing is read past the torrent's length, and no more is shown."""
    path = sparse(folder, 5 << 30)
    torrent = folder / 'torrent'
    torrent.write_bytes(b'd4:infod6:lengthi%de4:name1:a12:piece lengthi536870912e6:pieces60:' % (3 << 29)
                        + bytes(60) + b'ee')
    parts, told = watch(program, ['recheck', str(torrent), path])
    expect_equal('status and output', (1, b'pieces 0 of 3\nbits 00\n'), (told.status, told.out))
    check_lines(parts, told.err, 3 << 29, ERASED)


def test_nothing_is_shown_of_short_work(program, folder):
    """A file that is read at once, standard input, and the other commands: a fault has its two lines, and no other."""
    (folder / 'abc').write_bytes(b'abc')
    torrent = folder / 'torrent'
    torrent.write_bytes(ABC)
    for words, status, line in [(['make', '--name', 'a', str(folder / 'abc')], 0, b''),
                                (['make', '--name', '..', str(folder / 'abc')], 1,
                                 b'tor: N3 DotDot\ntor: .. is refused as N3 DotDot: it leads to the folder above\n'),
                                (['check', str(torrent)], 0, b''), (['magnet', str(torrent)], 0, b''),
                                (['prove', str(torrent), '0', '0'], 0, b''), (['--help'], 0, b''),
                                (['recheck', str(torrent), str(folder / 'abc')], 0, b''),
                                (['recheck', str(torrent), str(folder)], 1,
                                 b'tor: %s: it has no file of the torrent\n' % os.fsencode(folder)),
                                (['check', 'absent'], 3,
                                 b'tor: read fault\ntor: absent: No such file or directory (os error 2)\n')]:
        _, told = watch(program, words)
        expect_equal(f'{words}: status and standard error', (status, line), (told.status, told.err))
    big = sparse(folder, 1 << 30)
    for words, place in [(['make', '--name', 'a'], big), (['make', '--name', 'a', '--out', str(folder / 't')], big)]:
        with open(place, 'rb') as data:
            _, told = watch(program, words, stdin=data)
        expect_equal(f'{words}: status and standard error', (0, b''), (told.status, told.err))


def test_minutes_and_hours(program, folder):
    """How long the rest takes, of files that take minutes and hours: two lines of each, then the program is ended."""
    for size in [64 << 30, 400 << 30, 15 << 40]:
        path = sparse(folder, size)
        parts, _ = watch(program, ['make', '--name', 'a', '--piece-length', '1073741824', path], lines=2)
        for at, part in parts[:2]:
            check_line(part, at, size)
        os.remove(path)


# Control characters of two bytes, and those that turn the direction of what follows; and what stands beside them.
HIDDEN = [*range(0x80, 0xA0), *range(0x202A, 0x202F), *range(0x2066, 0x206A)]
BESIDE = [0xA0, 0xAA, 0xBF, 0xC0, 0x2000, 0x2029, 0x202F, 0x203F, 0x2040, 0x2065, 0x206A, 0x2080, 0x20AC, 0x1F426]


def at_terminal(program, words, **more):
    """The status, and what comes if standard output and standard error are one terminal."""
    master, slave = terminal()
    child = subprocess.Popen([program, *map(str, words)], stdin=subprocess.DEVNULL, stdout=slave, stderr=slave, **more)
    os.close(slave)
    shown = b''
    while select.select([master], [], [], 120)[0]:
        try:
            part = os.read(master, 65536)
        except OSError:
            break
        if not part:
            break
        shown += part
    os.close(master)
    return child.wait(), shown


def without_hidden(text):
    """Each of these characters as its bytes, each as a backslash, x and two digits."""
    for number in HIDDEN:
        spelled = chr(number).encode()
        text = text.replace(spelled, b''.join(b'\\x%02x' % byte for byte in spelled))
    return text


def of_names(folder, kind):
    """The torrent of a folder, and the folder: each character is in a name, all of them in one, and each twice."""
    texts = [f'a{chr(number)}b' for number in HIDDEN + BESIDE] + [''.join(map(chr, HIDDEN)), chr(0x9B) * 2, chr(0x202E)]
    files = sorted(((text.encode(),), b'x') for text in texts)
    place = folder / 'files'
    place.mkdir(exist_ok=True)
    for (name,), content in files:
        (place / os.fsdecode(name)).write_bytes(content)
    return reference.make(files, Order(kind, False, b'f', BLOCK, None, False, 'one', 1, 16)), place


def test_names_on_a_terminal(program, folder):
    for kind in ['v1', 'v2']:
        made, place = of_names(folder, kind)
        torrent = folder / 'torrent'
        torrent.write_bytes(made)
        lines = reference.check_lines(judge(made))
        expect(program, ['check', torrent], done(lines), note='without a terminal\n')
        expect_equal('check', (0, without_hidden(lines)), at_terminal(program, ['check', torrent]))
        (place / 'a\u202eb').write_bytes(b'')
        told = expect_told_of_bad(program, torrent, place)
        expect_equal('recheck', (1, without_hidden(told)), at_terminal(program, ['recheck', '--bad', torrent, place]))
        (place / 'a\u202eb').write_bytes(b'x')
        expect_equal('make', (0, made), at_terminal(program, ['make', '--name', 'f', '--kind', kind,
                                                             '--piece-length', BLOCK, place]))


def expect_told_of_bad(program, torrent, place):
    """What a recheck tells off a terminal, in which the character stands as it is."""
    told = subprocess.run([program, 'recheck', '--bad', torrent, place], capture_output=True)
    expect_equal('the character off a terminal', True, 'a\u202eb\n'.encode() in told.stdout)
    return told.stdout


def test_paths_and_a_file_of_a_flags_name_on_a_terminal(program, folder):
    """Paths that zero bytes end go out as they are; behind `--` there is no flag."""
    made, _ = of_names(folder, 'v2')
    torrent = folder / '--json'
    torrent.write_bytes(made)
    paths = subprocess.run([program, 'check', '--null', torrent], capture_output=True).stdout
    expect_equal('--null', (0, paths), at_terminal(program, ['check', '--null', torrent]))
    expect_equal('-- --json', (0, without_hidden(reference.check_lines(judge(made)))),
                 at_terminal(program, ['check', '--', '--json'], cwd=folder))


def test_json_on_a_terminal(program, folder):
    made, _ = of_names(folder, 'v2')
    torrent = folder / 'torrent'
    torrent.write_bytes(made)
    plain = subprocess.run([program, 'check', '--json', torrent], capture_output=True).stdout
    status, shown = at_terminal(program, ['check', '--json', torrent])
    expect_equal('status, and what it means', (0, json.loads(plain)), (status, json.loads(shown)))
    expect_equal('of these characters', shown, without_hidden(shown))
    expect_equal('another text', False, plain == shown)


def test_names_in_faults_on_a_terminal(program, folder):
    place = folder / 'no\u202efile\x9b'
    reason = b': No such file or directory (os error 2)\n'
    wanted = b'tor: read fault\ntor: ' + without_hidden(os.fsencode(place)) + reason
    expect_equal('both lines', (3, wanted), at_terminal(program, ['check', place]))
