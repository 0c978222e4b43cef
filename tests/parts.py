"""What a part of a plan asks of its files, and what it answers if they move while they are hashed.

No contract speaks of any of this: that each of the part's own files is looked at before a byte is read, and once more
after it was opened, that nothing is asked of another file, and that a file that is gone once it was looked at was
changed and is not missing. So each call of the program is held in turn, and meanwhile a file is cut, grown, removed or
exchanged. What has to come is known by whether the call is before the first upon that file, or after the last. If bytes
are others and the length is the same, each hash of the part is one of the file before or after.
"""
import os
import re
from collections import Counter, namedtuple
from itertools import combinations, product

from contents import content
from faults import traced
from reference import BLOCK, encode, sha1, sha256
from refuser import ALL_LATER, Meet, Met, Refuser
from support import (
    Failure, Skipped, Told, done, expect, expect_equal, expect_told, refused, run, shown, shown_words)

# The files of the plan. In units of a piece, the second of two parts begins within the second file, and has what comes
# after that; an empty file is no part's.
FILES = [('a', b'ab'), ('b/c', content(100_000)), ('b/d', b''), ('e', content(20_077)[77:]), ('g', content(10_000))]
OWN, NOT_OWN = [1, 3, 4], [0, 2]
KINDS = ['v1', 'v2', 'hybrid']
# The first piece of the second part: the pieces of version 1 go on over the ends of files, and those of hybrids are all
# equally long.
FIRST = {'v1': 4, 'v2': 5, 'hybrid': 6}
# Other parts, and the files of which they have bytes.
PARTS = [('v1', '1/4', [1]), ('v2', '1/4', [1]), ('hybrid', '1/4', [1]), ('v1', '0/19', [0, 1]),
         ('v2', '0/19', [0, 1]), ('hybrid', '0/19', [0]), ('v1', '35/40', [3, 4]), ('v2', '36/40', [4]),
         ('hybrid', '37/40', [4]), ('v1', '39/40', []), ('v2', '39/40', []), ('hybrid', '39/40', [])]
WAYS = [('one', 1), ('halves', 2), ('board', 2)]
# A file is asked for by its place, and not by what is open.
NO_FOLDER = -100

# What is done with a file: its name, how, what may be told if it is looked at afterwards for the first time, and what
# if it was looked at before; and which kinds of calls are held. Where nothing may be told its bytes are hashed. If a
# file was there when it was looked at, and is not when it is opened, that may be a fault of its bytes.
Move = namedtuple('Move', 'name act before between kinds', defaults=(['E2 Changed'], ['E2 Changed'], 'sor'))


def grown(place):
    with open(place, 'ab') as file:
        file.write(b'more')


def cut(place):
    os.truncate(place, os.path.getsize(place) - 5)


def emptied(place):
    os.truncate(place, 0)


def removed(place):
    place.unlink()


def exchanged(place, content):
    """Another file takes its place."""
    other = place.with_name('other')
    other.write_bytes(content)
    os.replace(other, place)


def exchanged_for_a_longer_one(place):
    exchanged(place, other_of(place.read_bytes()) + b'more')


def exchanged_for_a_shorter_one(place):
    exchanged(place, other_of(place.read_bytes())[5:])


def exchanged_for_one_as_long(place):
    exchanged(place, other_of(place.read_bytes()))


def rewritten(place):
    content = other_of(place.read_bytes())
    with open(place, 'r+b') as file:
        file.write(content)


def as_folder(place):
    place.unlink()
    place.mkdir()


def as_link_to_itself(place):
    place.unlink()
    place.symlink_to(place.name)


def as_fifo(place):
    place.unlink()
    os.mkfifo(place)


def other_of(content):
    """As long, and of other bytes throughout."""
    return content[1:] + content[:1]


REMOVED = Move('a file is removed', removed, ['E3 Missing'])
GROWN = Move('a file grows', grown)
CUT = Move('a file is cut', cut)
# Whether it is followed, which is a fault, is not said.
LINKED = Move('a file becomes a link to itself', as_link_to_itself, ['E1 Read', 'E3 Missing'],
              ['E1 Read', 'E2 Changed'])
EXCHANGED = Move('a file is exchanged for one as long', exchanged_for_one_as_long, [], ['E2 Changed'])
REWRITTEN = Move('a file is rewritten', rewritten, [], [])
MOVES = [
    REMOVED, GROWN, CUT, LINKED, EXCHANGED, REWRITTEN, Move('a file is emptied', emptied),
    Move('a file is exchanged for a longer one', exchanged_for_a_longer_one),
    Move('a file is exchanged for a shorter one', exchanged_for_a_shorter_one),
    Move('a file becomes a folder', as_folder, ['E3 Missing']),
    # Once it was looked at, to open a FIFO waits until somebody writes into it.
    Move('a file becomes a FIFO', as_fifo, ['E3 Missing'], kinds='s')]


# A call that names a place, as strace tells it.
CALLS = re.compile(r'^(\w+)\([^"\n]*"([^"\n]*)"', re.M)
# These change the file itself, and not what is at its place.
WRITES = [grown, cut, emptied, rewritten]
# After these no such file is there.
NOT_THERE = [removed, as_folder, as_link_to_itself]


class Scene:
    """The files below a folder, their plan, and the words that hash the second of two parts of it."""

    def __init__(self, folder, kind):
        folder.mkdir(exist_ok=True)
        self.place, self.plan, self.kind = folder / 'f', folder / f'{kind}.plan', kind
        files = [item for name, content in FILES for item in (b'', len(content), name.encode())]
        self.text = encode({b'files': files, b'kind': kind.encode(), b'name': b'f', b'piece length': BLOCK,
                            b'span': 1})
        self.plan.write_bytes(self.text)
        self.lay_out()

    def at(self, number):
        return self.place / FILES[number][0]

    def lay_out(self):
        for number, (_, content) in enumerate(FILES):
            place = self.at(number)
            place.parent.mkdir(parents=True, exist_ok=True)
            if place.is_dir() and not place.is_symlink():
                place.rmdir()
            place.unlink(missing_ok=True)
            place.write_bytes(content)

    def words(self, way=('one', 1), part='1/2'):
        return ['make', '--plan', str(self.plan), '--part', part, '--how', way[0], '--workers', str(way[1]),
                str(self.place)]

    def right(self, moved=None):
        """The second part, if the bytes of one file are others."""
        contents = [content if number != moved else other_of(content) for number, (_, content) in enumerate(FILES)]
        hashes, sums = (b''.join(each[FIRST[self.kind]:]) for each in sums_of(self.kind, contents))
        return encode({b'hashes': hashes, b'part': 1, b'parts': 2, b'pieces': sums, b'plan': sha256(self.text)})


def blocks(content):
    return [content[at:at + BLOCK] for at in range(0, len(content), BLOCK)]


def sums_of(kind, contents):
    """The hashes of all pieces, which are blocks, and their SHA-1s: of the files end to end, or of each padded but for
    the last."""
    if kind == 'v1':
        return [], [sha1(block) for block in blocks(b''.join(contents))]
    pieces = [block for content in contents for block in blocks(content)]
    padded = [block.ljust(BLOCK, b'\0') for block in pieces[:-1]] + pieces[-1:]
    return [sha256(block) for block in pieces], [sha1(block) for block in padded] if kind == 'hybrid' else []


def number_of(met):
    """The number of the file that a call is upon, by its place or one below an open folder; None of anything else."""
    name = os.path.basename(met.place)
    return next((number for number, (path, _) in enumerate(FILES) if os.path.basename(path) == name), None)


def files_of(refuser, scene, words):
    """The numbers of the files that are asked for: before the first byte of one is read, in all, and once more after
    they were opened for the last time."""
    ended = refuser.run(words, Meet('sorl', 1, ALL_LATER, 'tell'))
    expect_equal(f'{words}: status and standard error', (0, b''), (ended.status, ended.err))
    calls = [(met.kind, number_of(met)) for met in ended.met if number_of(met) is not None]
    kinds = {number: ''.join(kind for kind, other in calls if other == number) for _, number in calls}
    first = next((at for at, (kind, _) in enumerate(calls) if kind == 'r'), 0)
    again = [number for number, of_file in kinds.items() if 's' in of_file[of_file.rfind('o') + 1:]]
    return [sorted(numbers) for numbers in ({number for _, number in calls[:first]}, kinds, again)]


def test_what_is_asked(program, folder):
    """Each of the part's own files is looked at before the first byte is read, and once more when it is open for the
    last time, or afterwards. Nothing is asked of another file."""
    refuser = Refuser(program, folder)
    for kind in KINDS:
        scene = Scene(folder, kind)
        for way in [('one', 1), ('halves', 1), ('halves', 2), ('halves', 5), ('board', 2), ('board', 5)]:
            words = scene.words(way)
            expect(program, words, done(scene.right()))
            expect_equal(f'{words}: which files are asked for, at first, in all and once more', [OWN] * 3,
                         files_of(refuser, scene, words))


def test_what_other_parts_ask(program, folder):
    """Of a part whose bytes are all of one file that one alone is asked for; of one that has no byte none is."""
    refuser = Refuser(program, folder)
    for kind, part, own in PARTS:
        scene = Scene(folder, kind)
        expect_equal(f'{kind}, {part}: which files are asked for, at first, in all and once more', [own] * 3,
                     files_of(refuser, scene, scene.words(part=part)))


def test_no_call_names_another_file(program, folder):
    """Of all calls of the program, whatever they are; that FILE of --out is there already is one more reason to ask
    which files are the plan's, and none to open one."""
    for kind, way in product(KINDS, WAYS):
        scene, out = Scene(folder, kind), folder / 'out'
        out.unlink(missing_ok=True)
        for is_there in [False, True]:
            words = [*scene.words(way), '--out', str(out)]
            told, log = traced(program, words, None, [], folder / 'log', trace='file,desc')
            expect_equal(f'{words}: how it ends', done(), told)
            expect_equal(f'{words}: the part', scene.right(), out.read_bytes())
            named = {(call, number_of(Met('', 0, 0, place))) for call, place in CALLS.findall(log)}
            if not {('openat', number) for number in OWN} <= named:
                raise Skipped('strace does not tell of the files that are opened')
            others = {pair for pair in named if pair[1] in NOT_OWN}
            asked = {('statx', number) for number in NOT_OWN} if is_there else set()
            expect_equal(f'{words}: calls upon other files, but for some', set(), others - asked)


def sweep(refuser, scene, way, number, move):
    """A file moves while each call is held in turn: how many there were, and how many ended with a fault."""
    words, place = scene.words(way), scene.at(number)
    scene.lay_out()
    # Of all calls of these kinds, with those upon the plan.
    met = refuser.run(words, Meet(move.kinds, 1, ALL_LATER, 'tell')).met
    calls = [(at, one.file) for at, one in enumerate(met, 1) if number_of(one) == number]
    (first, _), *_, (last, _) = calls
    # From here on it is open, and its place is not asked for any more.
    opened = max(at for at, file in calls if file == NO_FOLDER)
    counts, call, faults = Counter(), 0, 0
    for came in refuser.each(words, Meet(move.kinds, does='hold'), act=lambda _: move.act(place), before=scene.lay_out):
        call += 1
        when = 'before' if call <= first else 'between' if call <= opened else 'open' if call <= last else 'after'
        fault = fault_of(scene, way, number, move, when, came)
        if fault:
            raise Failure(f'run     {shown_words(words)}\nfile {number}: {move.name}, {when}, at {came.met}: {fault}\n'
                          f'came    {shown(Told(*came[:3]))}')
        counts[when] += 1
        faults += came.status > 1
    expect_equal(f'{words}: calls', len(met), call)
    if not counts['before'] or not counts['between']:
        raise Failure(f'{words}: {move.name} was not tried before and between: {counts}')
    return call, faults


def fault_of(scene, way, number, move, when, came):
    """What is wrong with how a run ended; None if nothing is."""
    told, is_for_one = Told(*came[:3]), way[0] == 'one'
    is_right = told == done(scene.right())
    # An open file is read, whatever is at its place; and its bytes, if it was looked at. Several workers call in no one
    # order.
    is_read = when == 'open' and (move.act not in WRITES or came.met[0].kind == 'r')
    if is_right and (when == 'after' or is_read or not is_for_one):
        return None
    if when == 'after' and is_for_one:
        return 'another part, whose bytes were all read before'
    lines = move.before if when == 'before' else move.between
    if not told.status:
        may_be_read = not lines or (move is EXCHANGED and when != 'before')
        return fault_of_bytes(scene, way, number, when, told) if may_be_read else f'it is not {lines}'
    # It was looked at before, and is opened when it is not there.
    is_opened = not is_for_one or (came.met[0].kind, number_of(came.met[0])) == ('o', number)
    wanted = lines + ['E1 Read'] * (when != 'before' and is_opened and move.act in NOT_THERE)
    lines = [rf'{re.escape(one)} file {number}' + r' at (length|[0-9]+)' * (one == 'E1 Read') for one in wanted]
    is_told = any(re.fullmatch(f'tor: {one}\n'.encode(), told.err) for one in lines)
    return None if is_told and told.status == 3 and not told.out else f'it is not {wanted}'


def fault_of_bytes(scene, way, number, when, told):
    """The same, if the file has as many bytes as before: the hashes are of one state or the other, piece by piece. One
    worker hashes the pieces in order."""
    old, new = scene.right(), scene.right(number)
    if when == 'before':
        return None if told == done(new) else 'another part than of what was there from the first question on'
    if (told.status, told.err, len(told.out)) != (0, b'', len(old)):
        return 'it is no part of as many hashes'
    states = []
    for key, size in [(b'hashes', 32), (b'pieces', 20)]:
        columns = [[text[key][at:at + size] for at in range(0, len(text[key]), size)]
                   for text in map(read_part, (told.out, old, new))]
        rows = [row for row in zip(*columns) if row[1] != row[2]]
        if any(came not in (before, after) for came, before, after in rows):
            return 'a hash that is of neither state'
        states.append([came == after for came, _, after in rows])
    if way[0] == 'one' and any(state != sorted(state) for state in states):
        return 'what was read first is of the later state'
    return None if told.out.count(sha256(scene.text)) == 1 else 'a part of another plan'


def read_part(text):
    """The hashes of a part."""
    match = re.fullmatch(rb'd6:hashes([0-9]+):(.*)', text, re.S)
    hashes, rest = match[2][:int(match[1])], match[2][int(match[1]):]
    match = re.fullmatch(rb'4:parti1e5:partsi2e6:pieces([0-9]+):(.*)', rest, re.S)
    return {b'hashes': hashes, b'pieces': match[2][:int(match[1])]}


def sweeps(refuser, folder):
    """All there are, as `sweeps` of moving.py has them."""
    for move, kind, way, number in product(MOVES, KINDS, WAYS, OWN):
        # Of several that read, one may be about to open the file while a call of another is held.
        if move.act is not as_fifo or way[0] == 'one':
            yield (f'make --part {kind}, {way[0]}', move,
                   lambda: sweep(refuser, Scene(folder, kind), way, number, move))


def test_a_file_that_moves(program, folder):
    """Each move of each file of the part, by one worker; and some by several."""
    refuser = Refuser(program, folder)
    scene = Scene(folder, 'v2')
    for move, number in product(MOVES, OWN):
        sweep(refuser, scene, WAYS[0], number, move)
    for kind, way in [('v1', ('one', 1)), ('hybrid', ('one', 1)), ('v2', ('board', 2)), ('hybrid', ('halves', 2))]:
        for move in [REMOVED, GROWN, CUT, EXCHANGED]:
            sweep(refuser, Scene(folder, kind), way, 3, move)


def test_a_file_of_another_part_that_moves(program, folder):
    """It changes nothing, whenever it moves."""
    refuser, scene = Refuser(program, folder), Scene(folder, 'v2')
    for move, number in product([REMOVED, GROWN, LINKED], NOT_OWN):
        for came in refuser.each(scene.words(), Meet('sor', does='hold'), act=lambda _: move.act(scene.at(number)),
                                 before=scene.lay_out):
            expect_equal(f'file {number}: {move.name}, at {came.met}', done(scene.right()), Told(*came[:3]))


def lines_of(lines, number):
    return [refused(f'{line} file {number}' + ' at length' * line.startswith('E1'), 3) for line in lines]


def test_the_first_of_two_files(program, folder):
    """If two files of the part are not as planned, the first in the order of the plan is told, whatever it is."""
    scene = Scene(folder, 'v2')
    moves = [REMOVED, GROWN, CUT, LINKED]
    for (first, second), (one, other), way in product(combinations(OWN, 2), product(moves, repeat=2), WAYS):
        scene.lay_out()
        one.act(scene.at(first))
        other.act(scene.at(second))
        expect_one_of(f'{first}: {one.name}, {second}: {other.name}', lines_of(one.before, first),
                      run(program, scene.words(way)))


def expect_one_of(what, wanted, told):
    if told not in wanted:
        either = '\nor      '.join(map(shown, wanted))
        raise Failure(f'{what}\nwanted  {either}\ncame    {shown(told)}')


def test_the_first_of_two_files_afterwards(program, folder):
    """Two files move once all is read. If their lengths are asked once more, the first in the order of the plan is
    told, and as changed if it is gone."""
    refuser = Refuser(program, folder)
    moves = [REMOVED, GROWN, CUT, LINKED]
    for kind, way in [('v2', ('one', 1)), ('v1', ('board', 2))]:
        scene = Scene(folder, kind)
        scene.lay_out()
        met = refuser.run(scene.words(way), Meet('sorl', 1, ALL_LATER, 'tell')).met
        last = max(at for at, one in enumerate(met, 1) if one.kind == 'r' and number_of(one) is not None)
        if last == len(met):
            continue
        for (first, second), (one, other) in product(combinations(OWN, 2), product(moves, repeat=2)):
            scene.lay_out()

            def act(_met):
                one.act(scene.at(first))
                other.act(scene.at(second))
            came = refuser.run(scene.words(way), Meet('sorl', last + 1, last + 1, 'hold'), act=act)
            expect_one_of(f'{first}: {one.name}, {second}: {other.name}',
                          [done(scene.right()), *lines_of(one.between, first)], Told(*came[:3]))


def test_a_length_before_a_byte(program, folder):
    """The bytes of the first file cannot be read, and the last is not as planned: its length is told, and no byte is
    read. A file of another part that cannot be read tells nothing."""
    scene, words, log = Scene(folder, 'v2'), Scene(folder, 'v2').words(), folder / 'log'
    failing = ['pread64:error=EIO']
    for move in [REMOVED, GROWN, CUT, LINKED]:
        scene.lay_out()
        move.act(scene.at(4))
        told, calls = traced(program, words, scene.at(1), failing, log)
        expect_one_of(move.name, lines_of(move.before, 4), told)
        expect_equal(f'{move.name}: whether a byte is read', False, 'pread64' in calls)
    scene.lay_out()
    told, _ = traced(program, words, scene.at(1), failing, log)
    expect_told(words, refused(f'E1 Read file 1 at {4 * BLOCK}', 3), told)
    told, _ = traced(program, words, scene.at(0), failing, log)
    expect_told(words, done(scene.right()), told)


def test_a_plan_of_one_file(program, folder):
    """Its length is asked once more after the last read; if it is gone by then it was changed."""
    refuser, place, plan, content = Refuser(program, folder), folder / 'one', folder / 'plan', FILES[3][1]
    plan.write_bytes(encode({b'files': [b'', len(content), b'one'], b'kind': b'v2', b'name': b'one',
                             b'piece length': BLOCK, b'single': 1, b'span': 1}))
    words = ['make', '--plan', str(plan), '--part', '0/1', '--how', 'one', str(place)]

    def lay_out_one():
        place.unlink(missing_ok=True)
        place.write_bytes(content)
    for move in [REMOVED, GROWN, CUT, LINKED]:
        *_, last = refuser.each(words, Meet('s', does='hold'), act=lambda _: move.act(place), before=lay_out_one)
        expect_one_of(move.name, lines_of(move.between, 0), Told(*last[:3]))
