"""Torrents that are made of files, worked out by hand from BEP 3, BEP 47 and BEP 52 but for hashes, which are those of
Python's hashlib: by each way to hash, and of standard input however much a read gives."""
import hashlib
from collections import namedtuple
from itertools import repeat

from contents import torrent_of
from found import object_of
from random_cases import lay_out
from reference import BLOCK
from rows import ABC, FOLDER_HYBRID, FOLDER_V1
from streams import told_of_parts
from support import done, expect, expect_equal, expect_told, refused


def sha256(*parts):
    return hashlib.sha256(b''.join(parts)).digest()


def sha1(*parts):
    return hashlib.sha1(b''.join(parts)).digest()


def counted(length):
    """So many bytes, of which byte i is i % 251."""
    return bytes(i % 251 for i in range(length))


def sevens(length):
    return b'\x07' * length


A, C = sha256(b'ab'), sha256(b'c')
PADDING = b'd4:attr1:p6:lengthi16382e4:pathl4:.pad5:16382ee'
TAIL = b'd4:attr1:p6:lengthi16383e4:pathl4:.pad5:16383ee'
HEAD_A = b'd4:infod9:file treed1:ad0:d6:lengthi2e11:pieces root32:' + A
HEAD_AB = HEAD_A + b'ee1:bd0:d6:lengthi1e11:pieces root32:' + C
# From the name `f` on, in version 2, and in a hybrid up to its pieces.
END = b'12:meta versioni2e4:name1:f12:piece lengthi16384ee12:piece layersd'
SUMS = b'12:meta versioni2e4:name1:f12:piece lengthi16384e6:pieces'
HYBRID_END = b'e12:piece layersdee'
SUM_A, SUM_C, SUM_TAIL = sha1(b'ab', bytes(16382)), sha1(b'c'), sha1(b'c', bytes(16383))

EMPTY_V1 = b'd4:infod6:lengthi0e4:name1:a12:piece lengthi16384e6:pieces0:ee'
EMPTY_V2 = (b'd4:infod9:file treed1:ad0:d6:lengthi0eeee12:meta versioni2e4:name1:a12:piece lengthi16384ee'
            b'12:piece layersdee')
EMPTY_HYBRID = (b'd4:infod9:file treed1:ad0:d6:lengthi0eeee6:lengthi0e12:meta versioni2e4:name1:a'
                b'12:piece lengthi16384e6:pieces0:e12:piece layersdee')
# The hybrid of the one file `a`, that has `abc`, without padding.
SINGLE = (b'd4:infod9:file treed1:ad0:d6:lengthi3e11:pieces root32:' + sha256(b'abc') + b'eee6:lengthi3e'
          b'12:meta versioni2e4:name1:a12:piece lengthi16384e6:pieces20:' + sha1(b'abc') + HYBRID_END)

# The padding stands directly after `ab`; no byte follows `ab`, and so no padding.
EMPTY_BETWEEN = (HEAD_A + b'ee2:aad0:d6:lengthi0eee1:bd0:d6:lengthi1e11:pieces root32:' + C
                 + b'eee5:filesld6:lengthi2e4:pathl1:aee' + PADDING + b'd6:lengthi0e4:pathl2:aaee'
                 + b'd6:lengthi1e4:pathl1:beee' + SUMS + b'40:' + SUM_A + SUM_C + HYBRID_END)
EMPTY_AFTER = (HEAD_A + b'ee2:aad0:d6:lengthi0eeee5:filesld6:lengthi2e4:pathl1:aeed6:lengthi0e4:pathl2:aaeee' + SUMS
               + b'20:' + sha1(b'ab') + HYBRID_END)

# With --tail: `a` and `b`; with an empty file, before which the tail stands; `a` alone; and where `b` fills its piece.
TAILED = (HEAD_AB + b'eee5:filesld6:lengthi2e4:pathl1:aee' + PADDING + b'd6:lengthi1e4:pathl1:bee' + TAIL + b'e' + SUMS
          + b'40:' + SUM_A + SUM_TAIL + HYBRID_END)
TAIL_BEFORE_EMPTY = (HEAD_AB + b'ee1:cd0:d6:lengthi0eeee5:filesld6:lengthi2e4:pathl1:aee' + PADDING
                     + b'd6:lengthi1e4:pathl1:bee' + TAIL + b'd6:lengthi0e4:pathl1:ceee' + SUMS + b'40:' + SUM_A
                     + SUM_TAIL + HYBRID_END)
TAIL_ALONE = HEAD_A + b'eee5:filesld6:lengthi2e4:pathl1:aee' + PADDING + b'e' + SUMS + b'20:' + SUM_A + HYBRID_END
NO_TAIL = (HEAD_A + b'ee1:bd0:d6:lengthi16384e11:pieces root32:' + sha256(sevens(BLOCK))
           + b'eee5:filesld6:lengthi2e4:pathl1:aee' + PADDING + b'd6:lengthi16384e4:pathl1:beee' + SUMS + b'40:' + SUM_A
           + sha1(sevens(BLOCK)) + HYBRID_END)

# `a/c`, that has `y`, and `a-b`, that has `x`: the folder comes first.
DASH_V1 = (b'd4:infod5:filesld6:lengthi1e4:pathl1:a1:ceed6:lengthi1e4:pathl3:a-beee4:name1:f12:piece lengthi16384e'
           b'6:pieces20:' + sha1(b'yx') + b'ee')
DASH_V2 = (b'd4:infod9:file treed1:ad1:cd0:d6:lengthi1e11:pieces root32:' + sha256(b'y')
           + b'eee3:a-bd0:d6:lengthi1e11:pieces root32:' + sha256(b'x') + b'eee' + END + b'ee')

# Files of counted bytes: of a block, of a byte more, of three blocks, of five in pieces of two, two of three blocks.
LEAVES = [sha256(counted(81920)[at:at + BLOCK]) for at in range(0, 81920, BLOCK)]
END_OF_A = b'eee12:meta versioni2e4:name1:a12:piece lengthi16384ee12:piece layersd'
LONG_END_OF_A = b'eee12:meta versioni2e4:name1:a12:piece lengthi32768ee12:piece layersd'
ONE_BLOCK = b'd4:infod9:file treed1:ad0:d6:lengthi16384e11:pieces root32:' + LEAVES[0] + END_OF_A + b'ee'


def layered(head, end, root, layer):
    """A torrent of one file of this layer."""
    return head + root + end + b'32:' + root + b'%d:' % (32 * len(layer)) + b''.join(layer) + b'ee'


PAST_A_BLOCK = [LEAVES[0], sha256(counted(BLOCK + 1)[BLOCK:])]
TWO_BLOCKS = layered(b'd4:infod9:file treed1:ad0:d6:lengthi16385e11:pieces root32:', END_OF_A, sha256(*PAST_A_BLOCK),
                     PAST_A_BLOCK)
THREE_BLOCKS = layered(b'd4:infod9:file treed1:ad0:d6:lengthi49152e11:pieces root32:', END_OF_A,
                       sha256(sha256(*LEAVES[:2]), sha256(LEAVES[2], bytes(32))), LEAVES[:3])


def of_five_blocks(leaves):
    """The torrent of five blocks in pieces of two."""
    layer = [sha256(*leaves[:2]), sha256(*leaves[2:4]), sha256(leaves[4], bytes(32))]
    root = sha256(sha256(*layer[:2]), sha256(layer[2], sha256(bytes(64))))
    return layered(b'd4:infod9:file treed1:ad0:d6:lengthi81920e11:pieces root32:', LONG_END_OF_A, root, layer)


FIVE_BLOCKS = of_five_blocks(LEAVES)


def of_two_equal_files(length, root, layer):
    head = b'd4:infod9:file treed1:ad0:d6:lengthi%de11:pieces root32:' % length + root
    return layered(head + b'ee1:bd0:d6:lengthi%de11:pieces root32:' % length, b'eee' + END, root, layer)


LAYER_OF_40000 = [*LEAVES[:2], sha256(counted(40000)[2 * BLOCK:])]
ROOT_OF_40000 = sha256(sha256(*LAYER_OF_40000[:2]), sha256(LAYER_OF_40000[2], bytes(32)))
EQUAL_FILES = of_two_equal_files(40000, ROOT_OF_40000, LAYER_OF_40000)
SEVEN, SEVEN_LAST = sha256(sevens(BLOCK)), sha256(sevens(1))
EQUAL_SEVENS = of_two_equal_files(16385, sha256(SEVEN, SEVEN_LAST), [SEVEN, SEVEN_LAST])
LONG_NAME = b'n' * 255
OF_LONG_NAME = (b'd4:infod9:file treed255:' + LONG_NAME + b'd0:d6:lengthi0eeee12:meta versioni2e4:name255:' + LONG_NAME
                + b'12:piece lengthi16384ee12:piece layersdee')

# What is asked for, the contents by path, and their torrent.
Row = namedtuple('Row', 'kind single piece_length name files torrent tail', defaults=(False,))
A_AND_B = {'a': b'ab', 'b': b'c'}
ROWS = [
    Row('v2', True, 16384, 'a', {'a': b'abc'}, ABC),
    Row('v1', True, 16384, 'a', {'a': b''}, EMPTY_V1),
    Row('v2', True, 16384, 'a', {'a': b''}, EMPTY_V2),
    Row('hybrid', True, 16384, 'a', {'a': b''}, EMPTY_HYBRID),
    Row('v1', False, 16384, 'f', A_AND_B, FOLDER_V1),
    Row('hybrid', False, 16384, 'f', A_AND_B, FOLDER_HYBRID),
    Row('hybrid', False, 16384, 'f', {'a': b'ab', 'aa': b'', 'b': b'c'}, EMPTY_BETWEEN),
    Row('hybrid', False, 16384, 'f', {'a': b'ab', 'aa': b''}, EMPTY_AFTER),
    Row('v1', False, 16384, 'f', {'a-b': b'x', 'a/c': b'y'}, DASH_V1),
    Row('v2', False, 16384, 'f', {'a-b': b'x', 'a/c': b'y'}, DASH_V2),
    Row('v2', True, 16384, 'a', {'a': counted(16384)}, ONE_BLOCK),
    Row('v2', True, 16384, 'a', {'a': counted(16385)}, TWO_BLOCKS),
    Row('v2', True, 16384, 'a', {'a': counted(49152)}, THREE_BLOCKS),
    Row('v2', True, 32768, 'a', {'a': counted(81920)}, FIVE_BLOCKS),
    Row('v2', True, 32768, 'a', {'a': sevens(81920)}, of_five_blocks([SEVEN] * 5)),
    Row('v2', False, 16384, 'f', {'a': counted(40000), 'b': counted(40000)}, EQUAL_FILES),
    Row('v2', False, 16384, 'f', {'a': sevens(16385), 'b': sevens(16385)}, EQUAL_SEVENS),
    Row('v2', True, 16384, LONG_NAME.decode(), {LONG_NAME.decode(): b''}, OF_LONG_NAME),
    Row('hybrid', False, 16384, 'f', A_AND_B, TAILED, True),
    Row('hybrid', False, 16384, 'f', {'a': b'ab', 'b': b'c', 'c': b''}, TAIL_BEFORE_EMPTY, True),
    Row('hybrid', False, 16384, 'f', {'a': b'ab'}, TAIL_ALONE, True),
    Row('hybrid', False, 16384, 'f', {'a': b'ab', 'b': sevens(16384)}, NO_TAIL, True),
    # If files are not aligned, a tail changes nothing.
    Row('v1', False, 16384, 'f', A_AND_B, FOLDER_V1, True),
    Row('v2', True, 16384, 'a', {'a': b'abc'}, ABC, True),
    Row('hybrid', True, 16384, 'a', {'a': b'abc'}, SINGLE, True),
]
HOWS = [('one', 1)] + [(how, workers) for how in ('halves', 'board', 'streams') for workers in (1, 2, 64)]


def place_of(folder, number, row):
    """What the torrent is to be made of: the one file, or a folder of the files."""
    place = folder / f'files {number}'
    lay_out(place, [(tuple(path.encode().split(b'/')), content) for path, content in row.files.items()])
    return place / row.name if row.single else place


def words_of(row, place, *options, command='make'):
    tail = ['--tail'] if row.tail else []
    return [command, '--name', row.name, '--kind', row.kind, '--piece-length', str(row.piece_length), *tail, *options,
            str(place)]


def test_torrents(program, folder):
    """Each way to hash, with one piece a unit and with two."""
    for number, row in enumerate(ROWS):
        place = place_of(folder, number, row)
        for how, workers in HOWS:
            for span in ('1', '2'):
                words = words_of(row, place, '--how', how, '--workers', str(workers), '--span', span)
                expect(program, words, done(row.torrent))


def test_a_tracker_and_private(program, folder):
    (folder / 'a').write_bytes(b'abc')
    wanted = ABC.replace(b'd4:info', b'd8:announce9:http://t/4:info', 1).replace(b'16384e', b'16384e7:privatei1e', 1)
    expect(program, words_of(ROWS[0], folder / 'a', '--announce', 'http://t/', '--private'), done(wanted))
    expect_equal('lengths', [158, 191, 62, 109, 130, 129, 382],
                 [len(text) for text in (ABC, wanted, EMPTY_V1, EMPTY_V2, EMPTY_HYBRID, FOLDER_V1, FOLDER_HYBRID)])


def test_a_name_of_padding(program, folder):
    """But in a hybrid of a folder, `.pad` is a name as any other."""
    file, alone = [((b'.pad', b'1'), b'x')], (
        b'd4:infod9:file treed4:.padd0:d6:lengthi1e11:pieces root32:' + sha256(b'x') + b'eee6:lengthi1e'
        b'12:meta versioni2e4:name4:.pad12:piece lengthi16384e6:pieces20:' + sha1(b'x') + HYBRID_END)
    rows = [Row('v1', False, 16384, 'f', {'.pad/1': b'x'}, torrent_of('v1', file, [], [], sha1(b'x'))),
            Row('v2', False, 16384, 'f', {'.pad/1': b'x'}, torrent_of('v2', file, [sha256(b'x')], [[]], b'')),
            Row('hybrid', True, 16384, '.pad', {'.pad': b'x'}, alone)]
    for number, row in enumerate(rows):
        place = place_of(folder, number, row)
        for how, workers in HOWS:
            expect(program, words_of(row, place, '--how', how, '--workers', str(workers)), done(row.torrent))
    place = place_of(folder, 'hybrid', Row('hybrid', False, 16384, 'f', {'.pad/1': b'x'}, None))
    expect(program, ['make', '--name', 'f', '--kind', 'hybrid', str(place)], refused('Y1 ReservedPad'))


def test_a_thousand_files(program, folder):
    """Files of one byte 7, which have the names 1000 to 1999."""
    row = Row('v1', False, 16384, 'f', {str(number): b'\x07' for number in range(1999, 999, -1)}, None)
    entries = b''.join(b'd6:lengthi1e4:pathl4:%dee' % number for number in range(1000, 2000))
    wanted = (b'd4:infod5:filesl' + entries + b'e4:name1:f12:piece lengthi16384e6:pieces20:' + sha1(sevens(1000))
              + b'ee')
    place = place_of(folder, 'all', row)
    for how, workers in HOWS:
        expect(program, words_of(row, place, '--how', how, '--workers', str(workers)), done(wanted))


def test_info_hashes(program, folder):
    """Those of `info` as it stands in the torrent."""
    for text, start, end, btih, btmh in [
            (ABC, 7, 140, None, '122097cfdba4cd02b8bfb50f3b765f573f20d73f934cdd1591a3c1333aafda95c436'),
            (FOLDER_V1, 7, 128, '5b31f52b05c3619aa3057861a8c2a9afc2ccad7f', None),
            (FOLDER_HYBRID, 7, 364, '3c4f16ed920ea3829dc2692ec10b6c277d67d436',
             '1220a795bdf1b9f938867a77db5c67d1453148b0ee10df97be900ca825fb9c2f5d8b')]:
        (folder / 'torrent').write_bytes(text)
        record = object_of(program, ['check', '--json', str(folder / 'torrent')])
        expect_equal('info hashes', (btih, btmh), (record['btih'], record['btmh']))
        info = text[start:end]
        expect_equal('hashes of `info`', (btih or sha1(info).hex(), btmh or '1220' + sha256(info).hex()),
                     (sha1(info).hex(), '1220' + sha256(info).hex()))


def test_reads_of_few_bytes(program, _folder):
    """The torrent of standard input is the same however much a read gives."""
    words = ['make', '--name', 'a', '--piece-length', '16384']
    ways = [(size, []) for size in (1, 2, 3, 7)]
    ways += [(size, ['--how', 'streams', '--workers', str(workers)]) for size, workers in ((1, 1), (2, 2), (7, 64))]
    for size, how in ways:
        told = told_of_parts(program, words + how, b'abc', repeat(size))
        expect_told(words + how, done(ABC), told, f'in reads of {size}\n')
