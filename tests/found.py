"""What `recheck` finds of pieces, files, bytes of files and parts, in tables worked out by hand: SHA-1 and SHA-256 are
those of Python's hashlib."""
import hashlib
import json

import reference
from random_cases import lay_out
from reference import BLOCK, encode, judge
from rows import FOLDER_HYBRID, PAIR
from support import Failure, done, expect, expect_equal, refused, run


def sums(*pieces):
    return b''.join(hashlib.sha1(piece).digest() for piece in pieces)


def of_list(lengths, piece_length, *pieces):
    """The torrent `f` of version 1 of files a, b, c of these lengths."""
    entries = [{b'length': length, b'path': [bytes([97 + number])]} for number, length in enumerate(lengths)]
    info = {b'files': entries, b'name': b'f', b'piece length': piece_length, b'pieces': sums(*pieces)}
    return encode({b'info': info})


# A hybrid of a = `ab` and b = `c`; with one bit of the SHA-1 of its first piece turned, or of the root of a.
OF_BOTH = FOLDER_HYBRID
OF_OTHER_SUM = OF_BOTH.replace(b'\xcb\x25\xce', b'\xca\x25\xce')
OF_OTHER_ROOT = OF_BOTH.replace(b'\xfb\x8e\x20', b'\xfa\x8e\x20')
# The same files in version 1: one piece runs across the end of the first.
JOINED = of_list([2, 1], BLOCK, b'abc')
EMPTY = (b'd4:infod9:file treed1:ad0:d6:lengthi0eeee12:meta versioni2e4:name1:a12:piece lengthi16384ee'
         b'12:piece layersdee')
# `abcdefghi` in pieces of one byte; in two files of eight bytes and one.
LETTERS = [bytes([byte]) for byte in b'abcdefghi']
NINE = b'd4:infod6:lengthi9e4:name1:a12:piece lengthi1e6:pieces180:' + sums(*LETTERS) + b'ee'
TWO = of_list([8, 1], 1, *LETTERS)
# Seventeen pieces of padding, and then a file of one byte.
PADDED = (b'd4:infod5:filesld4:attr1:p6:lengthi278528e4:pathl4:.pad6:278528eed6:lengthi1e4:pathl1:aeee4:name1:f'
          b'12:piece lengthi16384e6:pieces360:' + sums(*[bytes(BLOCK)] * 17, b'x') + b'ee')
# In version 1 `abc`, an empty file and `de`, in pieces of two bytes: the second has bytes of the first file and of the
# last.
CROSSING = of_list([3, 0, 2], 2, b'ab', b'cd', b'e')

# A torrent, the files that are there, and what is told of each: its state, how many pieces hold of how many, and how
# many bytes are there of how many.
FILES = [
    (OF_BOTH, [b'ab', b'c'], ['whole 1 1 2 2', 'whole 1 1 1 1']),
    (OF_BOTH, [None, b'd'], ['missing 0 1 - 2', 'bad 0 1 1 1']),
    # Too short, and with a byte past its end.
    (OF_BOTH, [b'a', b'cx'], ['short 0 1 1 2', 'whole 1 1 2 1']),
    # The SHA-1 of the first piece alone departs.
    (OF_OTHER_SUM, [b'ab', b'c'], ['whole 1 1 2 2', 'whole 1 1 1 1']),
    (OF_OTHER_ROOT, [b'ab', b'c'], ['bad 0 1 2 2', 'whole 1 1 1 1']),
    (JOINED, [b'abx', b'c'], ['whole 1 1 3 2', 'whole 1 1 1 1']),
    # The piece that both have bytes of.
    (JOINED, [b'ab', None], ['bad 0 1 2 2', 'missing 0 1 - 1']),
    (EMPTY, [b''], ['whole 0 0 0 0']),
    (EMPTY, [None], ['missing 0 0 - 0']),
    # It ends where a piece ends.
    (NINE, [b'abcdefgh'], ['short 8 9 8 9']),
    (NINE, [b'abcdXfghi'], ['bad 8 9 9 9']),
    (CROSSING, [b'abc', b'', b'de'], ['whole 2 2 3 3', 'whole 0 0 0 0', 'whole 2 2 2 2']),
    (CROSSING, [b'abX', None, b'de'], ['bad 1 2 3 3', 'missing 0 0 - 0', 'bad 1 2 2 2']),
    (CROSSING, [b'abc', b'', b'dX'], ['whole 2 2 3 3', 'whole 0 0 0 0', 'bad 1 2 2 2']),
    # It ends where a piece ends.
    (CROSSING, [b'ab', b'', b'de'], ['short 1 2 2 3', 'whole 0 0 0 0', 'bad 1 2 2 2']),
    # Padding is no file, and none of its pieces has bytes of the file after it.
    (PADDED, [None], ['missing 0 1 - 1']),
    (PADDED, [b'x'], ['whole 1 1 1 1']),
]

# A torrent, files of which these pieces are right, and what is told of each file: its first piece, how many it has, its
# length, and the bytes of it that are in pieces whose bits are not set.
RANGES = [
    # A piece across the end of one file and the beginning of another; between them an empty file.
    (CROSSING, [b'abc', b'', b'de'], '111', ['0+2 3:', '1+0 0:', '1+2 2:']),
    (CROSSING, [b'abX', b'', b'de'], '101', ['0+2 3: 2..3', '1+0 0:', '1+2 2: 0..1']),
    (CROSSING, [b'Xbc', b'', b'dX'], '010', ['0+2 3: 0..2', '1+0 0:', '1+2 2: 1..2']),
    (CROSSING, [b'aXX', b'', b'de'], '001', ['0+2 3: 0..3', '1+0 0:', '1+2 2: 0..1']),
    # Pieces that do not hold side by side are one range, and those apart are several.
    (NINE, [b'XXcXefghX'], '001011110', ['0+9 9: 0..2 3..4 8..9']),
    # Each file of a hybrid begins at a piece.
    (OF_BOTH, [b'aX', b'c'], '01', ['0+1 2: 0..2', '1+1 1:']),
    (OF_BOTH, [b'ab', b'X'], '10', ['0+1 2:', '1+1 1: 0..1']),
    (EMPTY, [b''], '', ['0+0 0:']),
]

# Pieces of a byte, their bitfield in hexadecimal, and how many of them are right.
PACKED = [
    ('', '', 0), ('0', '00', 0), ('1', '80', 1), ('10', '80', 1), ('01', '40', 1), ('11', 'c0', 2),
    ('00000001', '01', 1), ('11111111', 'ff', 8), ('111111111', 'ff80', 9), ('111111110', 'ff00', 8),
    ('000000001', '0080', 1), ('111111111111111110', 'ffff80', 17), ('101100111000111100', 'b38f00', 10),
]

# A torrent, the files that are there, how many parts, a part, and which of its pieces are there and right.
PARTS = [
    (NINE, [b'abcdXfghi'], 1, 0, '111101111 f780'),
    (NINE, [b'abcdXfghi'], 2, 0, '11110111 f7'),
    (NINE, [b'abcdXfghi'], 2, 1, '1 80'),
    # Two bytes for three parts: the last has none.
    (NINE, [b'abcdXfghi'], 3, 1, '1 80'),
    (NINE, [b'abcdXfghi'], 3, 2, ' '),
    (NINE, [None], 2, 1, '0 00'),
    (TWO, [b'abcdefgX', b'i'], 2, 0, '11111110 fe'),
    (TWO, [b'abcdefgX', b'i'], 2, 1, '1 80'),
    (TWO, [None, b'j'], 2, 1, '0 00'),
    # Eighteen pieces in three bytes: two for the first part. Padding is always there.
    (PADDED, [b'x'], 2, 0, '1111111111111111 ffff'),
    (PADDED, [b'x'], 2, 1, '11 c0'),
    (PADDED, [None], 2, 1, '10 80'),
]

# How many parts, a part of the nine pieces, its first piece, and the first after it.
PLACES = [(1, 0, 0, 9), (2, 0, 0, 8), (2, 1, 8, 9), (3, 2, 9, 9)]


class Place:
    """A torrent, and a folder with those of its files that are there."""

    def __init__(self, folder, number, text, contents):
        self.torrent, self.files = str(folder / f'torrent {number}'), str(folder / f'files {number}')
        (folder / f'torrent {number}').write_bytes(text)
        self.paths = [file.path for file in judge(text).files]
        there = [(path, content) for path, content in zip(self.paths, contents) if content is not None]
        lay_out(folder / f'files {number}', there)

    def words(self, *options):
        return ['recheck', *options, self.torrent, self.files]


def lines(pieces, digits):
    return f'pieces {pieces.count("1")} of {len(pieces)}\nbits {digits}\n'.encode()


def test_files(program, folder):
    for number, (text, contents, told) in enumerate(FILES):
        place = Place(folder, number, text, contents)
        marks = reference.marks_of(judge(text), contents)
        wanted = [f'{line} {path[0].decode()}\n'.encode() for line, path in zip(told, place.paths)]
        expect_equal('the files of the row', len(place.paths), len(told))
        out = reference.recheck_lines(marks) + b''.join(wanted)
        for workers in ['1', '2', '64']:
            expect(program, place.words('--files', '--workers', workers), done(out, 0 if all(marks) else 1))


def test_bad_bytes(program, folder):
    for number, (text, contents, pieces, told) in enumerate(RANGES):
        place = Place(folder, number, text, contents)
        record = object_of(program, place.words('--files', '--json'), 0 if '0' not in pieces else 1)
        bits = ''.join(f'{byte:08b}' for byte in bytes.fromhex(record['bits']))[:len(pieces)]
        firsts = [file['first_piece'] for file in object_of(program, ['check', '--json', place.torrent])['files']]
        came = [f"{first}+{file['pieces']} {file['told']}:" + ''.join(f' {start}..{end}' for start, end in file['bad'])
                for first, file in zip(firsts, record['files'])]
        expect_equal(f'{text!r:.200}, {contents}', (len(pieces), pieces, told), (record['pieces'], bits, came))


def object_of(program, words, status=0):
    told = run(program, words)
    if told.status != status or told.err:
        raise Failure(f'run     {words}\nwanted  status {status}\ncame    {told}')
    return json.loads(told.out)


def test_bits(program, folder):
    for number, (pieces, digits, count) in enumerate(PACKED):
        right = bytes(range(len(pieces)))
        info = {b'length': len(pieces), b'name': b'a', b'piece length': 1,
                b'pieces': sums(*(bytes([byte]) for byte in right))}
        content = bytes(byte if piece == '1' else byte ^ 255 for piece, byte in zip(pieces, right))
        place = Place(folder, number, encode({b'info': info}), [content])
        status = 0 if count == len(pieces) else 1
        expect_equal('the row', pieces.count('1'), count)
        expect(program, place.words(), done(lines(pieces, digits), status))
        # The bit of each piece, one by one: the bytes that are not in ranges.
        file, = object_of(program, place.words('--files', '--json'), status)['files']
        bad = {byte for start, end in file['bad'] for byte in range(start, end)}
        expect_equal(f'the bits of {pieces}', pieces, ''.join('0' if i in bad else '1' for i in range(len(pieces))))


def test_parts(program, folder):
    for number, (text, contents, parts, part, told) in enumerate(PARTS):
        place = Place(folder, number, text, contents)
        pieces, _, digits = told.partition(' ')
        expect(program, place.words('--workers', '2', '--part', f'{part}/{parts}'),
               done(lines(pieces, digits), 1 if '0' in pieces else 0))
    place = Place(folder, 'nine', NINE, [b'abcdefghi'])
    for parts, part, start, end in PLACES:
        record = object_of(program, place.words('--json', '--part', f'{part}/{parts}'))
        expect_equal(f'part {part} of {parts}', (start, end), (record['from'], record['to']))


def test_parts_ask_for_their_own_files_alone(program, folder):
    """A link to itself tells no length."""
    place = Place(folder, 0, TWO, [None, b'i'])
    (folder / 'files 0' / 'a').symlink_to('a')
    expect(program, place.words('--workers', '1', '--part', '0/2'), refused('C1 Read file 0 at length', 3))
    expect(program, place.words('--workers', '2', '--part', '1/2'), done(lines('1', '80')))


def test_torrents(_program, _folder):
    """The torrents of the tables are what they are said to be."""
    expect_equal('a hybrid', (382, True), (len(OF_BOTH), OF_BOTH != OF_OTHER_SUM != OF_OTHER_ROOT != OF_BOTH))
    expect_equal('of two files', reference.make(PAIR, reference.Order(
        'v1', False, b'f', BLOCK, None, False, 'one', 1, 16)), JOINED)
