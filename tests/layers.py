"""Torrents with piece layers, and proofs of their pieces, worked out from BEP 52: leaves are any hashes.

The layer of a file shows in `prove`: a proof with siblings has a hash of it.
"""
import hashlib

from described import expect_rows
from rows import ABC, FOLDER_V1
from sides import END_2, FILE_A as ENTRY_A, FILE_B as ENTRY_B, PADDING, TWO as TREE_OF_TWO
from support import Failure, done, expect, expect_equal, refused, run


def pair(one, other):
    return hashlib.sha256(one + other).digest()


L0, L1, L2, ZERO = (bytes([byte]) * 32 for byte in (1, 2, 3, 0))
TWO = pair(L0, L1)
# L2 and the zeros of a piece past the end, of one block, or of two.
LAST = pair(L2, ZERO)
THREE = pair(TWO, LAST)
ZEROS = pair(ZERO, ZERO)
LAST_OF_TWO_BLOCKS = pair(L2, ZEROS)
FIVE = pair(TWO, LAST_OF_TWO_BLOCKS)

# What stands before the length of the file a, between a length and its root, and before the length of a file b.
FILE_A = b'd4:infod9:file treed1:ad0:d6:lengthi'
ROOT = b'e11:pieces root32:'
FILE_B = b'ee1:bd0:d6:lengthi'
# What stands between the last root and the layers of the folder `f`: pieces of one block, and of two.
LAYERS = b'eee12:meta versioni2e4:name1:f12:piece lengthi16384ee12:piece layersd'
LAYERS_OF_TWO_BLOCKS = b'eee12:meta versioni2e4:name1:f12:piece lengthi32768ee12:piece layersd'
# The same of the torrent `a` of one file, up to the one key of its layers.
LAYERS_OF_A = b'eee12:meta versioni2e4:name1:a12:piece lengthi16384ee12:piece layersd32:'
# L1 with another last bit.
OTHER = L1[:31] + b'\x82'

# The two blocks of one piece; two files of three pieces with the same content; the five blocks of three pieces.
ONE_PIECE = FILE_A + b'32768' + ROOT + TWO + LAYERS_OF_TWO_BLOCKS + b'ee'
THREE_PIECES = FILE_A + b'49152' + ROOT + THREE + LAYERS + b'32:' + THREE + b'96:' + L0 + L1 + L2 + b'ee'
THREE_PIECES_TWICE = (FILE_A + b'40000' + ROOT + THREE + FILE_B + b'40000' + ROOT + THREE + LAYERS + b'32:' + THREE
                      + b'96:' + L0 + L1 + L2 + b'ee')
FIVE_BLOCKS = FILE_A + b'81920' + ROOT + FIVE + LAYERS_OF_TWO_BLOCKS + b'32:' + FIVE + b'96:' + L0 + L1 + L2 + b'ee'
# The file b is the hashes of both pieces of a.
WITH_ITS_HASHES = (FILE_A + b'32768' + ROOT + TWO + FILE_B + b'64' + ROOT + TWO + LAYERS + b'32:' + TWO + b'64:' + L0
                   + L1 + b'ee')
# The hybrid of the file a of two pieces.
HYBRID_OF_TWO = (FILE_A + b'16385' + ROOT + TWO + b'eee6:lengthi16385e12:meta versioni2e4:name1:a12:piece lengthi16384e'
                 b'6:pieces40:0123456789abcdef01230123456789abcdef0123e12:piece layersd32:' + TWO + b'64:' + L0 + L1
                 + b'ee')
# The hybrid of a of two bytes and b of one, whose hashes are any bytes.
FOLDER_HYBRID = TREE_OF_TWO + ENTRY_A + PADDING + ENTRY_B + END_2
# One empty file, of version 2, and a hybrid.
EMPTY_V2 = (b'd4:infod9:file treed1:ad0:d6:lengthi0eeee12:meta versioni2e4:name1:a12:piece lengthi16384ee'
            b'12:piece layersdee')
EMPTY_HYBRID = (b'd4:infod9:file treed1:ad0:d6:lengthi0eeee6:lengthi0e12:meta versioni2e4:name1:a'
                b'12:piece lengthi16384e6:pieces0:e12:piece layersdee')

# The bytes, what is told of them with a `+` for each hash of a layer, and the layer of each file longer than a piece.
LAYERED = [
    (FILE_A + b'16384' + ROOT + L0 + LAYERS + b'ee', 'v2 f 16384 1: a 16384', []),
    (FILE_A + b'16385' + ROOT + TWO + LAYERS + b'32:' + TWO + b'64:' + L0 + L1 + b'ee', 'v2 f 16384 2: a 16385++',
     [L0, L1]),
    (THREE_PIECES, 'v2 f 16384 3: a 49152+++', [L0, L1, L2]),
    (FIVE_BLOCKS, 'v2 f 32768 3: a 81920+++', [L0, L1, L2]),
    (ONE_PIECE, 'v2 f 32768 1: a 32768', []),
    (THREE_PIECES_TWICE, 'v2 f 16384 6: a 40000+++ b 40000+++', [L0, L1, L2]),
    (WITH_ITS_HASHES, 'v2 f 16384 3: a 32768++ b 64', [L0, L1]),
    (FILE_A + b'64' + ROOT + TWO + FILE_B + b'32768' + ROOT + TWO + LAYERS + b'32:' + TWO + b'64:' + L0 + L1 + b'ee',
     'v2 f 16384 3: a 64 b 32768++', [L0, L1]),
    # Of four pieces, the last of zeros.
    (FILE_A + b'49153' + ROOT + THREE + LAYERS + b'32:' + THREE + b'128:' + L0 + L1 + L2 + ZERO + b'ee',
     'v2 f 16384 4: a 49153++++', [L0, L1, L2, ZERO]),
    (FILE_A + b'16385' + ROOT + TWO + LAYERS_OF_A + TWO + b'64:' + L0 + L1 + b'ee', 'v2 a 16384 2: a 16385++',
     [L0, L1]),
]

WRONG = [
    # One bit changed; swapped; of one hash, of three, with what lies past the end; that is not there.
    (FILE_A + b'16385' + ROOT + TWO + LAYERS + b'32:' + TWO + b'64:' + L0 + OTHER + b'ee', 'V21 LayerRoot'),
    (FILE_A + b'16385' + ROOT + TWO + LAYERS + b'32:' + TWO + b'64:' + L1 + L0 + b'ee', 'V21 LayerRoot'),
    (FILE_A + b'16385' + ROOT + TWO + LAYERS + b'32:' + TWO + b'32:' + L0 + b'ee', 'V20 LayerLength'),
    (FILE_A + b'16385' + ROOT + TWO + LAYERS + b'32:' + TWO + b'96:' + L0 + L1 + L2 + b'ee', 'V20 LayerLength'),
    (FILE_A + b'49152' + ROOT + THREE + LAYERS + b'32:' + THREE + b'128:' + L0 + L1 + L2 + ZERO + b'ee',
     'V20 LayerLength'),
    (FILE_A + b'16385' + ROOT + TWO + LAYERS + b'ee', 'V19 LayerAbsent'),
    # Swapped, empty, and of another root.
    (FILE_A + b'16385' + ROOT + TWO + LAYERS_OF_A + TWO + b'64:' + L1 + L0 + b'ee', 'V21 LayerRoot'),
    (FILE_A + b'16385' + ROOT + TWO + LAYERS_OF_A + TWO + b'0:ee', 'V20 LayerLength'),
    (FILE_A + b'16385' + ROOT + TWO + LAYERS_OF_A + L0 + b'64:' + L0 + L1 + b'ee', 'V19 LayerAbsent'),
]

LAST_NUMBER = (1 << 64) - 1
# A torrent, a file and an index, and why there is no proof.
REFUSED = [
    (ABC, 0, 1, 'P1 Index'), (ABC, 0, LAST_NUMBER, 'P1 Index'), (ABC, 1, 0, 'P1 Index'),
    (ABC, LAST_NUMBER, 0, 'P1 Index'), (THREE_PIECES, 0, 3, 'P1 Index'), (THREE_PIECES, 1, 0, 'P1 Index'),
    (FOLDER_HYBRID, 1, 1, 'P1 Index'), (FOLDER_HYBRID, 2, 0, 'P1 Index'), (FOLDER_V1, 0, 0, 'P2 NoTree'),
    (FOLDER_V1, 1, 7, 'P2 NoTree'), (FOLDER_V1, 2, 0, 'P1 Index'), (EMPTY_V2, 0, 0, 'P2 NoTree'),
    (EMPTY_V2, 1, 0, 'P1 Index'), (EMPTY_HYBRID, 0, 1, 'P2 NoTree'),
]

ROOT_OF_ABC = hashlib.sha256(b'abc').digest()
ANY = b'0123456789abcdef0123456789abcdef'
# A torrent, a file and an index, and the hash and the siblings of the proof.
PROVED = [
    (ABC, 0, 0, ROOT_OF_ABC, []), (FOLDER_HYBRID, 0, 0, ANY, []), (FOLDER_HYBRID, 1, 0, ANY, []),
    (ONE_PIECE, 0, 0, TWO, []),
    (THREE_PIECES_TWICE, 0, 0, L0, [L1, LAST]), (THREE_PIECES_TWICE, 0, 1, L1, [L0, LAST]),
    (THREE_PIECES_TWICE, 0, 2, L2, [ZERO, TWO]), (THREE_PIECES_TWICE, 1, 0, L0, [L1, LAST]),
    (THREE_PIECES_TWICE, 1, 1, L1, [L0, LAST]), (THREE_PIECES_TWICE, 1, 2, L2, [ZERO, TWO]),
    (FIVE_BLOCKS, 0, 0, L0, [L1, LAST_OF_TWO_BLOCKS]), (FIVE_BLOCKS, 0, 2, L2, [ZEROS, TWO]),
    (WITH_ITS_HASHES, 0, 0, L0, [L1]), (WITH_ITS_HASHES, 0, 1, L1, [L0]), (WITH_ITS_HASHES, 1, 0, TWO, []),
    (HYBRID_OF_TWO, 0, 0, L0, [L1]), (HYBRID_OF_TWO, 0, 1, L1, [L0]),
]


def layer_of(program, place, number, length, piece_length):
    """The hashes of the proofs of a file that have siblings. There is one proof for each piece, and no other."""
    hashes, count = [], -(-length // piece_length)
    for index in range(count):
        told = run(program, ['prove', str(place), str(number), str(index)])
        if told.status:
            raise Failure(f'no proof of piece {index} of file {number}\ncame    {told}')
        _, own, *siblings = told.out.splitlines()
        if siblings:
            hashes.append(bytes.fromhex(own.decode().removeprefix('hash ')))
    expect(program, ['prove', str(place), str(number), str(count)], refused('P1 Index'))
    return hashes


def test_layers(program, folder):
    place = folder / 'torrent'
    for text, told, layer in LAYERED:
        expect_rows(program, folder, [(text, told.replace('+', ''))])
        front, files = told.split(': ')
        piece_length = int(front.split()[2])
        for number, file in enumerate(files.split()[1::2]):
            length = int(file.rstrip('+'))
            came = layer_of(program, place, number, length, piece_length)
            wanted = layer if length > piece_length else []
            expect_equal(f'the layer of file {number} of {told}', (file.count('+'), wanted), (len(came), came))


def test_wrong_layers(program, folder):
    expect_rows(program, folder, WRONG)


def test_proofs(program, folder):
    for text, number, index, own, siblings in PROVED:
        (folder / 'torrent').write_bytes(text)
        lines = [f'index {index}', f'hash {own.hex()}', *(f'sibling {sibling.hex()}' for sibling in siblings)]
        expect(program, ['prove', str(folder / 'torrent'), str(number), str(index)],
               done(''.join(line + '\n' for line in lines).encode()), note=f'{text!r:.300}\n')


def test_no_proof(program, folder):
    for text, number, index, line in REFUSED:
        (folder / 'torrent').write_bytes(text)
        expect(program, ['prove', str(folder / 'torrent'), str(number), str(index)], refused(line),
               note=f'{text!r:.300}\n')
