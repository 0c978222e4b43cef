"""What the program answers where files move while it reads them.

Each call that asks something of the files is held in turn, and meanwhile a file is removed, cut, grown, or becomes
something else, or the whole folder goes. What comes has to be the torrent, or the bits, of what was there before or of
what is there then, or the fault of that file. With `--check-after` a torrent goes out only where its files have each
piece of it afterwards. bench/hostile tries all; tests/run a part of it that takes seconds.

And without a pause, or with short ones, a folder or a file is exchanged with a link that leads to others like it,
outside: no byte of those may come into a torrent.

tests/moving.py PROGRAM [COUNT]     makes so many torrents meanwhile, 10,000 if none is named
"""
import collections
import ctypes
import functools
import os
import re
import shutil
import signal
import sys
import tempfile
import time
from collections import namedtuple
from pathlib import Path

import parts
import reference
from hostile import BLOCK, CONTENTS, KINDS, LONG, OLD, WAYS, torrent_of
from reference import Order, Refused, judge
from refuser import ALL_LATER, Meet, Refuser
from support import Failure, Skipped, done, expect_equal, refused, run, shown, shown_words

# The file that moves, which is file 1: its place below the folder.
MOVED = 'b/c'
# As long as what it has, and of other bytes throughout.
OTHER = LONG[1:] + LONG[:1]
# What is done with the folder or its file: its name, the numbers of the files whose faults may be told, and which kinds
# of calls are held.
Move = namedtuple('Move', 'name act numbers kinds', defaults=('1', 'solr'))


def removed(folder):
    shutil.rmtree(folder)


def file_removed(folder):
    (folder / MOVED).unlink()


def emptied(folder):
    os.truncate(folder / MOVED, 0)


def cut(folder):
    os.truncate(folder / MOVED, 20_000)


def grown(folder):
    with open(folder / MOVED, 'ab') as file:
        file.write(b'more')


def rewritten(folder):
    with open(folder / MOVED, 'r+b') as file:
        file.write(OTHER)


def as_folder(folder):
    (folder / MOVED).unlink()
    (folder / MOVED).mkdir()


def as_link(folder):
    (folder / MOVED).unlink()
    (folder / MOVED).symlink_to('c')


def as_fifo(folder):
    (folder / MOVED).unlink()
    os.mkfifo(folder / MOVED)


def folder_as_file(folder):
    shutil.rmtree(folder / 'b')
    (folder / 'b').write_bytes(b'file')


MOVES = [Move('the folder is removed', removed, '[0-3]'), Move('a file is removed', file_removed),
         Move('a file is emptied', emptied), Move('a file is cut', cut), Move('a file grows', grown),
         Move('a file becomes a folder', as_folder), Move('a file becomes a link to itself', as_link),
         # Only who was told right before what a file is, and then opens what has become a FIFO, waits until somebody
         # writes into it: so the calls that open are not held.
         Move('a file becomes a FIFO', as_fifo, kinds='slr'), Move('a folder becomes a file', folder_as_file, '[12]')]
# Only where it is looked for again does what comes tell of a file that stays as long as it is.
REWRITTEN = Move('a file is rewritten', rewritten)


def lay_out(folder):
    shutil.rmtree(folder, ignore_errors=True)
    for path, content in CONTENTS:
        target = folder / os.fsdecode(b'/'.join(path))
        target.parent.mkdir(parents=True, exist_ok=True)
        target.write_bytes(content)


def found(folder):
    """The files that are there."""
    files = []
    for top, _, names in os.walk(folder):
        for name in names:
            place = os.path.join(top, name)
            if os.path.isfile(place) and not os.path.islink(place):
                with open(place, 'rb') as file:
                    files.append((tuple(os.fsencode(os.path.relpath(place, folder)).split(b'/')), file.read()))
    return tuple(sorted(files))


@functools.cache
def answer_of(kind, files):
    """What `make` answers of these files. There are few, each asked about at many calls."""
    try:
        return done(reference.make(files, Order(kind, False, b'f', BLOCK, None, False, 'one', 1, 1)))
    except Refused as refusal:
        return refused(refusal.line)


def states(after):
    """The files that there were, that there are, and that there were in between where a folder became a file. A folder
    that is removed while it is open is listed as an empty one."""
    return [tuple(CONTENTS), after, tuple((path, data) for path, data in CONTENTS if path in dict(after))]


def fault_of_make(kind, move, came, after):
    """What is wrong with an answer of `make`; None where nothing is."""
    if came[:3] in [answer_of(kind, files) for files in states(after)]:
        return None
    line = rb'tor: (F4 System|E1 Read file %b at (length|[0-9]+)|E2 Changed file %b|E3 Missing file %b)\n' % (
        (move.numbers.encode(),) * 3)
    is_told = re.fullmatch(line, came.err) and came.status == 3
    is_refused = came.status == 1 and came.err == b'tor: F2 NotRegular\n' and move.act in (as_link, as_fifo)
    return None if (is_told or is_refused) and not came.out else 'another answer'


def fault_of_recheck(torrent, has_files, move, came, after):
    """What is wrong with an answer of `recheck`: the bits and what is told of the files are of one state."""
    if came.status in (0, 1) and not came.err:
        contents = [[dict(files).get(path) for path, _ in CONTENTS] for files in states(after)]
        lines = came.out.splitlines(keepends=True)
        told, found = (b''.join(lines[:2]), came.status), lines[2:]
        wanted = [read for read in contents if answer_of_recheck(torrent, read) == told]
        if not wanted:
            return 'other bits'
        if not has_files:
            return None if not found else 'files that nobody asked for'
        of_states = [list(map(reference.found_line, reference.files_found(torrent, read))) for read in wanted]
        return None if found in of_states else 'other files'
    line = rb'tor: (C1 Read file %b at (length|[0-9]+)|C2 Changed file %b)\n' % ((move.numbers.encode(),) * 2)
    return None if re.fullmatch(line, came.err) and came.status == 3 and not came.out else 'another fault'


def answer_of_recheck(torrent, contents):
    marks = reference.marks_of(torrent, contents)
    return reference.recheck_lines(marks), 0 if all(marks) else 1


def fault_of_after(kind, move, is_first, came, after):
    """What is wrong with an answer of `make --check-after` of files that moved while they were read first, or again."""
    answers = [answer_of(kind, files) for files in states(after)]
    if came.status == 0:
        if came[:3] not in (answers if is_first else answers[:1]):
            return 'another torrent'
        return None if not is_first or all(marks_of(came.out, after)) else 'a torrent whose pieces are not there'
    if came.out:
        return 'a fault, and something went out'
    counts = re.fullmatch(rb'tor: not as made: ([0-9]+) of ([0-9]+) pieces\n', came.err)
    if counts and came.status == 1:
        torrents = [answer.out for answer in answers if answer.status == 0]
        return None if are_counts(*map(int, counts.groups()), torrents, after) else 'other counts'
    line = rb'tor: (F4 System|[CE]1 Read file %b at (length|[0-9]+)|[CE]2 Changed file %b|E3 Missing file %b)\n' % (
        (move.numbers.encode(),) * 3)
    is_told = re.fullmatch(line, came.err) and came.status == 3
    is_refused = came.status == 1 and came.err == b'tor: F2 NotRegular\n' and move.act in (as_link, as_fifo)
    return None if is_told or is_refused or came[:3] in answers else 'another fault'


@functools.cache
def marks_of(text, files):
    """Which pieces of a torrent these files have."""
    torrent = judge(text)
    return reference.marks_of(torrent, [dict(files).get(file.path) for file in torrent.files])


def are_counts(good, pieces, torrents, after):
    """Whether so many of so many pieces may be right: those of the files that stayed are, and not all."""
    stayed = tuple(file for file in CONTENTS if file in after)
    marks = [marks_of(torrent, stayed) for torrent in torrents]
    return min(map(sum, marks)) <= good < pieces and min(map(len, marks)) <= pieces <= max(map(len, marks))


def make_words(folder, kind, way):
    return ['make', '--name', 'f', '--kind', kind, '--piece-length', str(BLOCK), '--span', '1', '--how', way[0],
            '--workers', str(way[1]), str(folder)]


def sweep(refuser, folder, words, move, fault_of):
    """Does it while each call is held in turn: how many there were, and how many ended with a fault. `fault_of` judges
    how a run ended, by the files that there are then and the number of the call."""
    count = told = 0
    for came in refuser.each(words, Meet(move.kinds, does='hold'), act=lambda met: move.act(folder),
                             before=lambda: lay_out(folder)):
        count += 1
        told += came.status > 1 or b'not as made' in came.err
        fault = fault_of(came, found(folder), count)
        if fault:
            raise Failure(f'run     {shown_words(words)}\n{move.name}, at {came.met}: {fault}\ncame    {came[:3]}')
    return count, told


def sweep_make(refuser, folder, kind, way, move):
    return sweep(refuser, folder, make_words(folder, kind, way), move,
                 lambda came, after, _: fault_of_make(kind, move, came, after))


def sweep_after(refuser, folder, kind, way, move, has_out):
    """Of `make --check-after`; with `--out` an old file is there, and stays where nothing goes out."""
    words, out = make_words(folder, kind, way), folder.with_name('out')
    lay_out(folder)
    first_calls = len(refuser.run(words, Meet(move.kinds, 1, ALL_LATER, 'tell')).met)
    out.write_bytes(OLD)

    def fault_of(came, after, call):
        if has_out:
            kept = out.read_bytes()
            out.write_bytes(OLD)
            if came.out:
                return 'something on standard output'
            came = came._replace(out=b'' if kept == OLD else kept)
        return fault_of_after(kind, move, call <= first_calls, came, after)
    return sweep(refuser, folder, [*words, '--check-after', *['--out', str(out)] * has_out], move, fault_of)


def sweep_recheck(refuser, folder, kind, move, has_files):
    text = torrent_of(kind, False)
    place = folder.with_name('torrent')
    place.write_bytes(text)
    return sweep(refuser, folder, ['recheck', *['--files'] * has_files, str(place), str(folder)], move,
                 lambda came, after, _: fault_of_recheck(judge(text), has_files, move, came, after))


def sweeps(refuser, folder):
    """All there are: the words of each, the move, and what to call."""
    yield from sweeps_of_one_pass(refuser, folder)
    yield from sweeps_of_two_passes(refuser, folder)
    yield from parts.sweeps(refuser, folder.with_name('parts'))


def sweeps_of_one_pass(refuser, folder):
    for move in MOVES:
        # Of several that read, one may be about to open the file while a call of another is held.
        is_for_one = move.act is as_fifo
        for kind in KINDS:
            for way in WAYS:
                if not is_for_one or way[0] in ('one', 'streams'):
                    yield f'make {kind}, {way[0]}', move, lambda: sweep_make(refuser, folder, kind, way, move)
            if not is_for_one:
                yield f'recheck {kind}', move, lambda: sweep_recheck(refuser, folder, kind, move, False)
                yield f'recheck --files {kind}', move, lambda: sweep_recheck(refuser, folder, kind, move, True)


def sweeps_of_two_passes(refuser, folder):
    for move in [*MOVES, REWRITTEN]:
        for kind in KINDS:
            # In the second pass several read where one did behind streams.
            for way in WAYS[:1] if move.act is as_fifo else WAYS:
                for has_out in [False, True]:
                    what = f'make --check-after {kind}, {way[0]}' + ', --out' * has_out
                    yield what, move, lambda: sweep_after(refuser, folder, kind, way, move, has_out)


def test_a_file_that_is_cut(program, folder):
    """A file is cut at each moment in turn, while a torrent is made of its folder or the folder is rechecked."""
    refuser = Refuser(program, folder)
    move = next(move for move in MOVES if move.act is cut)
    for way in [('board', 2), ('streams', 2)]:
        sweep_make(refuser, folder / 'f', 'v2', way, move)
    for kind, has_files in [('v2', False), ('v2', True), ('v1', True), ('hybrid', True)]:
        sweep_recheck(refuser, folder / 'f', kind, move, has_files)


def test_a_file_that_becomes_a_fifo(program, folder):
    """At any call but that which opens it, a FIFO in the place of a file is not waited for."""
    refuser = Refuser(program, folder)
    move = next(move for move in MOVES if move.act is as_fifo)
    for kind, way in [('v2', ('one', 1)), ('hybrid', ('one', 1)), ('v1', ('streams', 1))]:
        sweep_make(refuser, folder / 'f', kind, way, move)


def test_a_file_that_moves_before_it_is_checked_after(program, folder):
    """A file is rewritten, cut, removed or grown at each moment in turn, while a torrent is made of its folder and then
    looked for there."""
    refuser = Refuser(program, folder)
    move_of = {move.act: move for move in [*MOVES, REWRITTEN]}
    for act, kind, way, has_out in [
            (rewritten, 'v2', ('one', 1), True), (rewritten, 'hybrid', ('board', 2), False),
            (cut, 'v2', ('streams', 2), True), (file_removed, 'v1', ('halves', 2), True),
            (grown, 'v2', ('streams', 2), False)]:
        sweep_after(refuser, folder / 'f', kind, way, move_of[act], has_out)


def test_a_piece_that_is_rewritten_between_the_passes(program, folder):
    """Of a file of two pieces the second is rewritten before a read: before the first pass it is made so, before the
    second one piece is as it was made."""
    refuser, place = Refuser(program, folder), folder / 'file'
    words = ['make', '--name', 'a', '--piece-length', str(BLOCK), '--how', 'one', '--check-after', str(place)]
    came = [(ended.status, ended.err) for ended in refuser.each(
        words, Meet('r', does='hold'), act=lambda _: place.write_bytes(bytes(BLOCK) + b'1' * BLOCK),
        before=lambda: place.write_bytes(bytes(2 * BLOCK)))]
    expect_equal('before the first read', (0, b''), came[0])
    expect_equal('before the last read', (1, b'tor: not as made: 1 of 2 pieces\n'), came[-1])


# What is exchanged with a link: a folder, one in which it is, a file.
EXCHANGED = ['d', 'd/e', 'd/e/f10', 'a', '.']
# Seconds between two exchanges, which are spent in waiting without sleep, but for the longest.
PAUSES = [0, 0.00005, 0.001]
EXCHANGE = 2
NO_FOLDER = -100
# What ends a run that met an exchange.
MET = re.compile(rb'tor: (F2 NotRegular|F4 System|E1 Read file [0-9]+ at (length|[0-9]+)|E2 Changed file [0-9]+|'
                 rb'E3 Missing file [0-9]+)\n')


def alike(letter):
    """Files of the same names and lengths, which have this letter."""
    return tuple(sorted([((b'a',), letter * 70_000), *(((b'd', b'e', b'f%d' % number), letter * (number * 100))
                                                      for number in range(20)), ((b'd', b'g'), letter)]))


def lay_out_files(folder, files):
    for path, content in files:
        target = folder / os.fsdecode(b'/'.join(path))
        target.parent.mkdir(parents=True, exist_ok=True)
        target.write_bytes(content)


def lay_out_alike(folder, letter):
    lay_out_files(folder, alike(letter))


def exchange_for_ever(one, other, pause):
    """What the process does that exchanges the two, until it is ended."""
    call = ctypes.CDLL(None, use_errno=True).renameat2
    one, other = os.fsencode(one), os.fsencode(other)
    while True:
        call(NO_FOLDER, one, NO_FOLDER, other, EXCHANGE)
        if pause >= 0.001:
            time.sleep(pause)
        else:
            end = time.perf_counter() + pause
            while time.perf_counter() < end:
                pass


class Exchanging:
    """Exchanges what stands at a path of the folder, or the folder itself, with a link that leads to the same path
    outside."""

    def __init__(self, folder, path, pause):
        self.one, self.other, self.pause = folder / 'in' / path, folder / 'link', pause
        if self.other.is_symlink():
            self.other.unlink()
        self.other.symlink_to(folder / 'out' / path)

    def __enter__(self):
        self.child = os.fork()
        if self.child == 0:
            try:
                exchange_for_ever(self.one, self.other, self.pause)
            finally:
                os._exit(1)

    def __exit__(self, *_):
        os.kill(self.child, signal.SIGKILL)
        os.waitpid(self.child, 0)
        if self.one.is_symlink():
            ctypes.CDLL(None).renameat2(NO_FOLDER, os.fsencode(self.one), NO_FOLDER, os.fsencode(self.other), EXCHANGE)


def exchanges(program, folder, count):
    """Makes torrents while each is exchanged, with each pause: how often what came of it."""
    if not hasattr(ctypes.CDLL(None), 'renameat2'):
        raise Skipped('it exchanges files by renameat2')
    lay_out_alike(folder / 'in', b'i')
    lay_out_alike(folder / 'out', b'o')
    came = collections.Counter()
    cases = [(path, pause, kind, way) for path in EXCHANGED for pause in PAUSES
             for kind, way in zip(KINDS, [('one', 1), ('board', 2), ('streams', 2)])]
    for number, (path, pause, kind, way) in enumerate(cases):
        # Who exchanges PATH itself can lead it elsewhere from the start: then it is the torrent of all that is there.
        right = [done(reference.make(alike(letter), Order(kind, False, b'f', BLOCK, None, False, 'one', 1, 1)))
                 for letter in ([b'i', b'o'] if path == '.' else [b'i'])]
        words = make_words(folder / 'in', kind, way)
        with Exchanging(folder, path, pause):
            for _ in range((count + number) // len(cases)):
                told = run(program, words)
                if told not in right and not (MET.fullmatch(told.err) and told.status in (1, 3) and not told.out):
                    raise Failure(f'run     {shown_words(words)}\n{path} is exchanged each {pause} s\n'
                                  f'came    {shown(told)}')
                came[told.err.decode()[5:7]] += 1
    return came


def test_a_link_that_takes_the_place_of_a_file_or_a_folder(program, folder):
    """No byte from outside comes into a torrent."""
    came = exchanges(program, folder, 45 * 12)
    if not came['F2'] or not came['']:
        raise Failure(f'no exchange was met, or each time one: {came}')


def expect_torrent_of_one(refuser, place, states, act, before):
    """Does it while each call of `make` is held in turn. What comes is the torrent of one of these states, or a fault;
    that of the first state and a fault both come."""
    for kind, way in zip(KINDS, [('one', 1), ('board', 2), ('streams', 2)]):
        words = make_words(place, kind, way)
        right = [done(reference.make(files, Order(kind, False, b'f', BLOCK, None, False, 'one', 1, 1)))
                 for files in states]
        ends = collections.Counter()
        for came in refuser.each(words, Meet('solr', does='hold'), act=lambda met: act(), before=before):
            told = came[:3]
            if told not in right and not (MET.fullmatch(came.err) and came.status in (1, 3) and not came.out):
                raise Failure(f'run     {shown_words(words)}\nit leads elsewhere at {came.met}\ncame    {told}')
            ends[right.index(told) if told in right else 'fault'] += 1
        if not ends[0] or not ends['fault']:
            raise Failure(f'{shown_words(words)}: never the first state, or no fault: {ends}')


def test_a_link_as_path_that_leads_elsewhere(program, folder):
    """PATH is a link, which leads to another folder from each moment in turn on: one with other bytes, and a file
    more."""
    states = [tuple(((name,), letter * 20_000) for name in names)
              for names, letter in [((b'a', b'c'), b'i'), ((b'a', b'b', b'c'), b'o')]]
    for name, files in zip(['first', 'second'], states):
        lay_out_files(folder / name, files)

    def lead_to(name):
        link = folder / 'link'
        link.symlink_to(name)
        os.replace(link, folder / 'f')

    expect_torrent_of_one(Refuser(program, folder), folder / 'f', states, lambda: lead_to('second'),
                          lambda: lead_to('first'))


def lead(folder, name):
    """The link `f` leads to this folder."""
    link = folder / 'link'
    link.symlink_to(name)
    os.replace(link, folder / 'f')


def test_a_link_as_path_that_leads_elsewhere_for_some_calls(program, folder):
    """PATH is a link, which leads to another folder from each moment in turn on, for two to four calls. No folder there
    is listed: what comes is the torrent of the first one, F4, or, if a file was looked for meanwhile, its fault."""
    files = {name: tuple(((b'd', file), name * 2_000) for file in names)
             for name, names in [(b'first', (b'a',)), (b'second', (b'a', b'b'))]}
    for name, listed in files.items():
        lay_out_files(folder / os.fsdecode(name), listed)
    listing = folder / 'listing'
    listing.write_bytes(b'd/a\0')
    right = done(reference.make(files[b'first'], Order('v2', False, b'f', BLOCK, None, False, 'one', 1, 1)))
    refuser = Refuser(program, folder)
    for more in [], ['--files-from', str(listing)]:
        words = [*make_words(folder / 'f', 'v2', ('one', 1)), *more]
        ends = collections.Counter(end for width in range(2, 5)
                                   for end in ends_elsewhere(refuser, folder, words, width, right))
        if not ends['right'] or not ends[b'F4']:
            raise Failure(f'{shown_words(words)}: never the torrent, or never F4: {ends}')


def ends_elsewhere(refuser, folder, words, width, right):
    """How each run ends during which `f` leads to the second folder for so many calls."""
    for first in range(1, ALL_LATER):
        lead(folder, 'first')
        count = 0

        def act(_met):
            nonlocal count
            count += 1
            if count in (1, width + 1):
                lead(folder, 'second' if count == 1 else 'first')

        came = refuser.run(words, Meet('sol', first, first + width, 'hold'), act=act)
        if not came.met:
            return
        told = came[:3]
        is_of_file = any(met.place.endswith('/a') for met in came.met)
        is_fault = MET.fullmatch(came.err) and came.status in (1, 3) and not came.out
        if told != right and not (is_fault and (is_of_file or b' F4 ' in came.err)):
            raise Failure(f'run     {shown_words(words)}\nit leads elsewhere at {came.met}\ncame    {told}')
        yield 'right' if told == right else came.err[5:7]


def test_a_link_as_path_that_leads_elsewhere_while_files_are_looked_for(program, folder):
    """With `--files-from`, PATH is a link that leads to another folder from each moment in turn on, until the last file
    was looked for: F4."""
    for name, letter in [('first', b'i'), ('second', b'o')]:
        lay_out_files(folder / name, [((file,), letter * 2_000) for file in (b'a', b'c')])
    listing = folder / 'listing'
    listing.write_bytes(b'a\0c\0')
    words = [*make_words(folder / 'f', 'v2', ('one', 1)), '--files-from', str(listing)]
    refuser = Refuser(program, folder)
    lead(folder, 'first')
    told = refuser.run(words, Meet('so', 1, ALL_LATER, 'tell')).met
    opens = next(at for at, met in enumerate(told) if met.kind == 'o' and met.place.endswith('/f/a'))
    last = max(at for at, met in enumerate(told[:opens]) if met.kind == 's' and met.place.endswith('/c'))
    # The folder is judged first, and then opened: what it leads to by then is what is listed.
    begins = next(at for at, met in enumerate(told) if met.kind == 's' and met.place.endswith('/a'))
    for at in range(begins, last + 1):
        lead(folder, 'first')
        came = refuser.run(words, Meet('so', at + 1, at + 1, 'hold'), act=lambda met: lead(folder, 'second'))
        if not came.err.startswith(b'tor: F4 System') or came.out:
            raise Failure(f'run     {shown_words(words)}\nit leads elsewhere at {came.met}\ncame    {came[:3]}')


def test_a_folder_that_becomes_a_link(program, folder):
    """A folder below PATH becomes a link to one outside, with files of the same names and lengths, from each moment in
    turn on: no byte from there comes."""
    below, aside = folder / 'in' / 'd', folder / 'aside'
    for name, letter in [('in', b'i'), ('out', b'o')]:
        lay_out_files(folder / name, [((b'd', file), letter * 20_000) for file in (b'a', b'c')])

    def become_link():
        os.rename(below, aside)
        below.symlink_to(folder / 'out' / 'd')

    def restore():
        if below.is_symlink():
            below.unlink()
            os.rename(aside, below)

    states = [tuple(((b'd', file), b'i' * 20_000) for file in (b'a', b'c'))]
    expect_torrent_of_one(Refuser(program, folder), folder / 'in', states, become_link, restore)


if __name__ == '__main__':
    with tempfile.TemporaryDirectory(prefix='tor-tests-') as name:
        came = exchanges(os.path.abspath(sys.argv[1]), Path(name), int((sys.argv[2:] or ['10000'])[0]))
    print(', '.join(f'{count} {line or "right"}' for line, count in sorted(came.items())))
