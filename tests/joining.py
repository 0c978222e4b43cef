"""Plans, parts and what is joined of them, spelled by hand (BEP 3, "bencoding"): the torrent is that of the whole."""
import hashlib

from contents import torrent_of
from made import (
    ABC, BLOCK, EMPTY_HYBRID, EMPTY_V1, EMPTY_V2, EQUAL_FILES, FIVE_BLOCKS, LAYER_OF_40000, PAST_A_BLOCK,
    ROOT_OF_40000, TAIL_BEFORE_EMPTY, Row, counted, place_of, sha1, sha256, words_of)
from reference import decode, encode, root_of
from support import Failure, done, expect, expect_equal, refused, run

# Files of three pieces, of none, of two and of one, with letters.
SEVERAL = {'a': counted(40000), 'b': b'', 'c': counted(16385), 'd': b'abc'}
LETTERS = 'x a\nhx d\n'
JOINED = b''.join(SEVERAL.values())
PADDED = counted(40000) + bytes(9152) + counted(16385) + bytes(16383) + b'abc'


def sums(content):
    return b''.join(sha1(content[at:at + BLOCK]) for at in range(0, len(content), BLOCK))


SEVERAL_V1 = (b'd4:infod5:filesld4:attr1:x6:lengthi40000e4:pathl1:aeed6:lengthi0e4:pathl1:bee'
              b'd6:lengthi16385e4:pathl1:ceed4:attr2:hx6:lengthi3e4:pathl1:deee4:name1:f12:piece lengthi16384e'
              b'6:pieces80:' + sums(JOINED) + b'ee')
SEVERAL_HYBRID = (
    b'd4:infod9:file treed1:ad0:d4:attr1:x6:lengthi40000e11:pieces root32:' + ROOT_OF_40000
    + b'ee1:bd0:d6:lengthi0eee1:cd0:d6:lengthi16385e11:pieces root32:' + sha256(*PAST_A_BLOCK)
    + b'ee1:dd0:d4:attr2:hx6:lengthi3e11:pieces root32:' + sha256(b'abc') + b'eee5:filesld4:attr1:x6:lengthi40000e'
    b'4:pathl1:aeed4:attr1:p6:lengthi9152e4:pathl4:.pad4:9152eed6:lengthi0e4:pathl1:beed6:lengthi16385e4:pathl1:cee'
    b'd4:attr1:p6:lengthi16383e4:pathl4:.pad5:16383eed4:attr2:hx6:lengthi3e4:pathl1:deee12:meta versioni2e4:name1:f'
    b'12:piece lengthi16384e6:pieces120:' + sums(PADDED) + b'e12:piece layersd32:' + sha256(*PAST_A_BLOCK) + b'64:'
    + b''.join(PAST_A_BLOCK) + b'32:' + ROOT_OF_40000 + b'96:' + b''.join(LAYER_OF_40000) + b'ee')

HYBRID = Row('hybrid', False, 16384, 'f', SEVERAL, SEVERAL_HYBRID)
# What is asked for, and the letters of files.
MADE = [
    (HYBRID, LETTERS),
    (Row('v2', True, 16384, 'a', {'a': b'abc'}, ABC), ''),
    (Row('v1', True, 16384, 'a', {'a': b''}, EMPTY_V1), ''),
    (Row('v2', True, 16384, 'a', {'a': b''}, EMPTY_V2), ''),
    (Row('hybrid', True, 16384, 'a', {'a': b''}, EMPTY_HYBRID), ''),
    (Row('v2', True, 32768, 'a', {'a': counted(81920)}, FIVE_BLOCKS), ''),
    (Row('v2', False, 16384, 'f', {'a': counted(40000), 'b': counted(40000)}, EQUAL_FILES), ''),
    (Row('hybrid', False, 16384, 'f', {'a': b'ab', 'b': b'c', 'c': b''}, TAIL_BEFORE_EMPTY, True), ''),
    (Row('v1', False, 16384, 'f', SEVERAL, SEVERAL_V1), LETTERS),
]
# Pieces a unit, and into how many parts the units are dealt.
DEALT = [(1, 1), (1, 3), (1, 9), (16, 1), (16, 3), (16, 9)]

# The plan of the hybrid, its root (that of at most a block is the SHA-256 of its bytes), and the same in units of two.
PLAN = (b'd5:filesl1:xi40000e1:a0:i0e1:b0:i16385e1:c2:hxi3e1:de4:kind6:hybrid4:name1:f12:piece lengthi16384e'
        b'4:spani1ee')
DIGEST = bytes.fromhex('990c6c27fa400250d3e2973f581b19db558c38788649d16787b755cd55a598cb')
OTHER = PLAN.replace(b'4:spani1e', b'4:spani2e')
# A tracker, and all flags, of one empty file.
FLAGS = (b'd8:announce3:t:/5:filesl0:i0e3:f/ge4:kind2:v14:name1:f12:piece lengthi16384e7:privatei1e4:spani1024e'
         b'4:taili1ee')
OF_FLAGS = (b'd8:announce3:t:/4:infod5:filesld6:lengthi0e4:pathl1:f1:geee4:name1:f12:piece lengthi16384e6:pieces0:'
            b'7:privatei1eee')

# What is no plan: it is cut, or goes on; a key too many, a flag that is 0, another kind, a file without a path, an
# empty one, a length below 0, a name with a slash, letters that are none.
NO_PLANS = [
    b'', b'de',
    b'd5:filesl0:i0e1:ae4:kind2:v14:name1:f12:piece lengthi16384e4:spani1e',
    b'd5:filesl0:i0e1:ae4:kind2:v14:name1:f12:piece lengthi16384e4:spani1eee',
    b'd5:filesl0:i0e1:ae4:kind2:v14:name1:f12:piece lengthi16384e4:spani1e1:xi1ee',
    b'd5:filesl0:i0e1:ae4:kind2:v14:name1:f12:piece lengthi16384e7:privatei0e4:spani1ee',
    b'd5:filesl0:i0e1:ae4:kind2:v34:name1:f12:piece lengthi16384e4:spani1ee',
    b'd5:filesl0:i0e1:a0:e4:kind2:v14:name1:f12:piece lengthi16384e4:spani1ee',
    b'd5:filesl0:i0e0:e4:kind2:v14:name1:f12:piece lengthi16384e4:spani1ee',
    b'd5:filesl0:i-1e1:ae4:kind2:v14:name1:f12:piece lengthi16384e4:spani1ee',
    b'd5:filesl0:i0e1:ae4:kind2:v14:name3:f/g12:piece lengthi16384e4:spani1ee',
    b'd5:filesl1:pi0e1:ae4:kind2:v14:name1:f12:piece lengthi16384e4:spani1ee',
]
# Plans of which no torrent is made, and why.
REFUSED_PLANS = [
    (b'd5:filesl0:i0e1:ae4:kind2:v14:name1:f12:piece lengthi16384e4:spani3ee', 'J1 Plan M3 Span'),
    (b'd5:filesl0:i0e1:b0:i0e1:ae4:kind2:v14:name1:f12:piece lengthi16384e4:spani1ee', 'J1 Plan M6 NotSorted'),
]

P32, H32 = b'p' * 32, b'h' * 32
# Parts, of a plan that is none.
READ = [
    b'd6:hashes0:4:parti0e5:partsi1e6:pieces0:4:plan32:' + P32 + b'e',
    b'd6:hashes64:' + H32 * 2 + b'4:parti2e5:partsi65536e6:pieces20:' + b's' * 20 + b'4:plan32:' + P32 + b'e',
]
# What is no part.
NO_PARTS = [
    b'', b'de',
    # It is cut, or goes on.
    b'd6:hashes0:4:parti0e5:partsi1e6:pieces0:4:plan32:' + P32,
    b'd6:hashes0:4:parti0e5:partsi1e6:pieces0:4:plan32:' + P32 + b'ee',
    # Its number is not below how many there are, or these are too many.
    b'd6:hashes0:4:parti1e5:partsi1e6:pieces0:4:plan32:' + P32 + b'e',
    b'd6:hashes0:4:parti0e5:partsi65537e6:pieces0:4:plan32:' + P32 + b'e',
    b'd6:hashes0:4:parti-1e5:partsi1e6:pieces0:4:plan32:' + P32 + b'e',
    b'd6:hashes0:4:parti4294967296e5:partsi1e6:pieces0:4:plan32:' + P32 + b'e',
    # A hash or the digest is a byte too short or too long.
    b'd6:hashes31:' + H32[:31] + b'4:parti0e5:partsi1e6:pieces0:4:plan32:' + P32 + b'e',
    b'd6:hashes33:' + H32 + b'h4:parti0e5:partsi1e6:pieces0:4:plan32:' + P32 + b'e',
    b'd6:hashes0:4:parti0e5:partsi1e6:pieces0:4:plan31:' + P32[:31] + b'e',
    b'd6:hashes0:4:parti0e5:partsi1e6:pieces0:4:plan33:' + P32 + b'pe',
    # A key too many, too few, of another value, or out of order.
    b'd4:filei1e6:hashes0:4:parti0e5:partsi1e6:pieces0:4:plan32:' + P32 + b'e',
    b'd6:hashes0:4:parti0e5:partsi1e4:plan32:' + P32 + b'e',
    b'd6:hashes0:4:part1:05:partsi1e6:pieces0:4:plan32:' + P32 + b'e',
    b'd6:hashes0:5:partsi1e4:parti0e6:pieces0:4:plan32:' + P32 + b'e',
]

# The files of a plan in units of a block, how many parts there are, the first unit of each, and that after the last.
UNITS = [
    # No unit.
    ({'a': b''}, 1, [0, 0]),
    ({'a': b''}, 3, [0, 0, 0, 0]),
    ({'a': b'abc'}, 1, [0, 1]),
    # A unit begins where the second part does.
    ({'a': counted(65536)}, 2, [0, 2, 4]),
    # Five blocks and a byte; with more parts than units some have none.
    ({'a': counted(81921)}, 1, [0, 6]),
    ({'a': counted(81921)}, 3, [0, 2, 4, 6]),
    ({'a': counted(81921)}, 9, [0, 1, 2, 2, 3, 3, 4, 4, 5, 6]),
    # All short files are before the second part begins.
    ({'a': b'a', 'b': b'b', 'c': b'c', 'd': counted(65536)}, 2, [0, 5, 7]),
]


class Plan:
    """A plan in a file, the place of what it describes, and the parts that were hashed by it."""

    def __init__(self, program, folder, text, place):
        self.program, self.folder, self.place, self.made = program, folder, str(place), {}
        self.file = folder / f'plan {hashlib.sha256(text).hexdigest()[:16]}'
        self.file.write_bytes(text)

    def part(self, number, parts):
        """The bytes of a part."""
        if (number, parts) not in self.made:
            words = ['make', '--plan', str(self.file), '--part', f'{number}/{parts}', '--how', 'board']
            self.made[number, parts] = told_of(self.program, [*words, '--workers', '2', self.place])
        return self.made[number, parts]

    def joins(self, parts, wanted):
        """That this is told when these parts are joined, which have the names 0, 1, 2, .."""
        for number, part in enumerate(parts):
            (self.folder / str(number)).write_bytes(part)
        words = ['join', str(self.file), *map(str, range(len(parts)))]
        expect(self.program, words, wanted, folder=self.folder)


def told_of(program, words):
    told = run(program, words)
    if told.status or told.err:
        raise Failure(f'run     {words}\ncame    {told}')
    return told.out


def plan_of(program, folder, number, row, letters, span):
    """The plan of a row's files, and these."""
    place = place_of(folder, number, row)
    attrs = folder / f'letters {number}'
    attrs.write_text(letters)
    words = words_of(row, place, '--span', str(span), '--attrs', str(attrs), command='plan')
    return Plan(program, folder, told_of(program, words), place)


def test_torrents_of_parts(program, folder):
    for number, (row, letters) in enumerate(MADE):
        for span, parts in DEALT:
            plan = plan_of(program, folder, f'{number} {span} {parts}', row, letters, span)
            plan.joins([plan.part(part, parts) for part in range(parts)], done(row.torrent))


def test_units(program, folder):
    """A part has the hashes of its units, which are blocks, one after another."""
    for number, (files, parts, bounds) in enumerate(UNITS):
        plan = plan_of(program, folder, number, Row('v2', False, 16384, 'f', files, None), '', 1)
        leaves = [sha256(content[at:at + BLOCK]) for content in files.values() for at in range(0, len(content), BLOCK)]
        expect_equal('the bounds of the row', (parts, len(leaves)), (len(bounds) - 1, bounds[-1]))
        for part, (first, after) in enumerate(zip(bounds, bounds[1:])):
            hashes = decode(plan.part(part, parts))[b'hashes']
            expect_equal(f'part {part} of {parts} of {number}', b''.join(leaves[first:after]), hashes)


def test_plans(program, folder):
    """They are written as they are spelled here, and read."""
    several = plan_of(program, folder, 'several', HYBRID, LETTERS, 1)
    expect_equal('the plan', PLAN, several.file.read_bytes())
    expect_equal('its digest', DIGEST, sha256(PLAN))
    expect_equal('the digest in a part', DIGEST, decode(several.part(1, 3))[b'plan'])
    other = plan_of(program, folder, 'other', HYBRID, LETTERS, 2)
    expect_equal('the plan in units of two', OTHER, other.file.read_bytes())
    other.joins([other.part(0, 1)], done(SEVERAL_HYBRID))
    empty = Row('v1', False, 16384, 'f', {'f/g': b''}, OF_FLAGS, True)
    place = place_of(folder, 'flags', empty)
    words = words_of(empty, place, '--announce', 't:/', '--private', '--span', '1024', command='plan')
    flags = Plan(program, folder, told_of(program, words), place)
    expect_equal('the plan with all flags', FLAGS, flags.file.read_bytes())
    flags.joins([flags.part(0, 1)], done(OF_FLAGS))


def test_no_plans(program, folder):
    for text, line in [(text, 'J1 Plan') for text in NO_PLANS] + REFUSED_PLANS:
        plan = Plan(program, folder, text, folder)
        plan.joins([], refused(line))
        words = ['make', '--plan', str(plan.file), '--part', '0/1', str(folder)]
        expect(program, words, refused(line), note=f'{text!r}\n')


def test_no_parts(program, folder):
    plan = Plan(program, folder, PLAN, folder)
    for text in READ:
        plan.joins([text], refused('J3 OtherPlan 0'))
    for text in NO_PARTS:
        plan.joins([text], refused('J2 NoPart 0'))


def test_first_refusal(program, folder):
    plan = plan_of(program, folder, 0, HYBRID, LETTERS, 1)
    other, no_plan = Plan(program, folder, OTHER, plan.place), Plan(program, folder, b'de', plan.place)

    def parts(*words):
        return [by.part(number, count) for by, count, number in words]
    rows = [
        (plan, parts((plan, 3, 2), (plan, 3, 0), (plan, 3, 1)), done(SEVERAL_HYBRID)),
        (plan, parts((plan, 1, 0)), done(SEVERAL_HYBRID)),
        (no_plan, parts((plan, 1, 0)), refused('J1 Plan')),
        (plan, parts((plan, 3, 2), (other, 3, 0), (plan, 3, 2)), refused('J3 OtherPlan 1')),
        (plan, parts((plan, 3, 2), (plan, 4, 0), (plan, 3, 2)), refused('J4 OtherParts 1')),
        (plan, parts((plan, 3, 2), (plan, 3, 0), (plan, 3, 2)), refused('J5 Twice 2')),
        (plan, parts((plan, 3, 2)), refused('J7 Missing 0-1')),
        (plan, [], refused('J7 Missing 0')),
        (plan, [plan.part(2, 3), plan.part(0, 3)[:-1]], refused('J2 NoPart 1')),
        (plan, [plan.part(2, 3), with_other(plan.part(0, 3), b'hashes', lambda sums: sums[:-32])],
         refused('J6 Length 1')),
    ]
    # A hash too few, or too many, and a SHA-1.
    for key, turned in [(b'hashes', lambda sums: sums[:-32]), (b'hashes', lambda sums: sums + bytes(32)),
                        (b'pieces', lambda sums: sums[:-20]), (b'pieces', lambda sums: sums + bytes(20))]:
        given = [with_other(plan.part(0, 3), key, turned), *parts((plan, 3, 1), (plan, 3, 2))]
        rows.append((plan, given, refused('J6 Length 0')))
    cut = with_other(plan.part(0, 3), b'pieces', lambda sums: sums[:-1])
    rows.append((plan, [cut, *parts((plan, 3, 1), (plan, 3, 2))], refused('J2 NoPart 0')))
    for by, given, wanted in rows:
        by.joins(given, wanted)


def with_other(text, key, turned):
    """A part with other hashes below a key."""
    part = decode(text)
    part[key] = turned(part[key])
    return encode(part)


def test_parts_of_each_other(program, folder):
    """Of parts whose hashes stand for each other's the torrent is another."""
    plan = plan_of(program, folder, 0, HYBRID, LETTERS, 1)
    first, second, third = (decode(plan.part(number, 3)) for number in range(3))
    for key in (b'hashes', b'pieces'):
        first[key], second[key] = second[key], first[key]
    (folder / 'swapped').mkdir()
    swapped = Plan(program, folder / 'swapped', PLAN, plan.place)
    of_a = [LAYER_OF_40000[2], PAST_A_BLOCK[0], LAYER_OF_40000[0]]
    of_c = [LAYER_OF_40000[1], PAST_A_BLOCK[1]]
    pieces = sums(PADDED)
    pieces = pieces[40:80] + pieces[:40] + pieces[80:]
    wanted = torrent_of('hybrid', [((name.encode(),), data) for name, data in SEVERAL.items()],
                        [root_of(of_a), None, root_of(of_c), sha256(b'abc')], [of_a, [], of_c, []], pieces,
                        letters={(b'a',): b'x', (b'd',): b'hx'})
    swapped.joins([encode(part) for part in (first, second, third)], done(wanted))


def test_a_shorter_file(program, folder):
    """A part that has bytes of it is refused, and no other."""
    plan = plan_of(program, folder, 0, HYBRID, LETTERS, 1)
    with open(folder / 'files 0' / 'a', 'r+b') as file:
        file.truncate(39999)
    end = b'4:plan32:' + DIGEST + b'e'
    behind_a = (b'd6:hashes64:' + PAST_A_BLOCK[1] + sha256(b'abc') + b'4:parti2e5:partsi3e6:pieces40:'
                + sha1(PADDED[4 * BLOCK:5 * BLOCK]) + sha1(b'abc') + end)
    of_d = b'd6:hashes32:' + sha256(b'abc') + b'4:parti8e5:partsi9e6:pieces20:' + sha1(b'abc') + end
    changed_a = refused('E2 Changed file 0', 3)
    for part, wanted in [('0/1', changed_a), ('0/3', changed_a), ('1/3', changed_a), ('2/3', done(behind_a)),
                         ('8/9', done(of_d))]:
        expect(program, ['make', '--plan', str(plan.file), '--part', part, plan.place], wanted)
