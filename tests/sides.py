"""Hybrids that are given by their bytes, worked out from BEP 3, BEP 47 and BEP 52: where padding may stand, where the
sides differ, and whose letters are told of a file. Hashes are any bytes."""
from again import Again
from changed import ROOM, try_texts
from described import expect_laid_out, expect_rows
from rows import FOLDER_HYBRID

# What stands before the entries of the folder `f`: its tree, of the files a of two bytes and b of one.
TWO = (b'd4:infod9:file treed1:ad0:d6:lengthi2e11:pieces root32:0123456789abcdef0123456789abcdefee1:bd0:d6:lengthi1e'
       b'11:pieces root32:0123456789abcdef0123456789abcdefeee5:filesl')
# What stands after the entries, with no piece, and with up to three.
END_0 = b'e12:meta versioni2e4:name1:f12:piece lengthi16384e6:pieces0:e12:piece layersdee'
END_1 = b'e12:meta versioni2e4:name1:f12:piece lengthi16384e6:pieces20:0123456789abcdef0123e12:piece layersdee'
END_2 = (b'e12:meta versioni2e4:name1:f12:piece lengthi16384e6:pieces40:0123456789abcdef01230123456789abcdef0123e'
         b'12:piece layersdee')
END_3 = (b'e12:meta versioni2e4:name1:f12:piece lengthi16384e6:pieces60:0123456789abcdef01230123456789abcdef0123012345'
         b'6789abcdef0123e12:piece layersdee')
# Entries: the files a and b, the padding between them, and empty files.
FILE_A = b'd6:lengthi2e4:pathl1:aee'
PADDING = b'd4:attr1:p6:lengthi16382e4:pathl4:.pad5:16382ee'
FILE_B = b'd6:lengthi1e4:pathl1:bee'
EMPTY_AA = b'd6:lengthi0e4:pathl2:aaee'
EMPTY_B = b'd6:lengthi0e4:pathl1:bee'

ALIGNED = [
    (TWO + FILE_A + PADDING + FILE_B + END_2, 'hybrid f 16384 2: a 2 b 1 | a 2 .pad/16382 16382p b 1'),
    (TWO + FILE_A + b'd4:attr1:p6:lengthi16382ee' + FILE_B + END_2,
     'hybrid f 16384 2: a 2 b 1 | a 2 .pad/16382 16382p b 1'),
    (TWO + FILE_A + b'd4:attr1:p6:lengthi382eed4:attr1:p6:lengthi16000eed4:attr1:p6:lengthi0ee' + FILE_B + END_2,
     'hybrid f 16384 2: a 2 b 1 | a 2 .pad/382 382p .pad/16000 16000p .pad/0 0p b 1'),
    (TWO + FILE_A + PADDING + FILE_B + b'd4:attr1:p6:lengthi16383ee' + END_2,
     'hybrid f 16384 2: a 2 b 1 | a 2 .pad/16382 16382p b 1 .pad/16383 16383p'),
    (TWO + FILE_A + PADDING + FILE_B + b'd4:attr1:p6:lengthi383eed4:attr1:p6:lengthi16000ee' + END_2,
     'hybrid f 16384 2: a 2 b 1 | a 2 .pad/16382 16382p b 1 .pad/383 383p .pad/16000 16000p'),
    (TWO + b'd4:attr1:p6:lengthi0ee' + FILE_A + PADDING + FILE_B + b'd4:attr1:p6:lengthi0ee' + END_2,
     'hybrid f 16384 2: a 2 b 1 | .pad/0 0p a 2 .pad/16382 16382p b 1 .pad/0 0p'),
    (TWO + b'd4:attr2:xh6:lengthi2e4:pathl1:aee' + PADDING + FILE_B + END_2,
     'hybrid f 16384 2: a 2xh b 1 | a 2xh .pad/16382 16382p b 1'),
    (TWO + FILE_A + FILE_B + END_1, 'V23 Alignment'),
    (TWO + FILE_A + b'd4:attr1:p6:lengthi32766ee' + FILE_B + END_3, 'V23 Alignment'),
    (TWO + b'd4:attr1:p6:lengthi16384ee' + FILE_A + PADDING + FILE_B + END_3, 'V23 Alignment'),
    (TWO + FILE_A + PADDING + FILE_B + b'd4:attr1:p6:lengthi5ee' + END_2, 'V23 Alignment'),
    (TWO + FILE_A + PADDING + FILE_B + b'd4:attr1:p6:lengthi32767ee' + END_3, 'V23 Alignment'),
    (TWO + FILE_A + PADDING + b'd6:lengthi2e4:pathl1:bee' + END_2, 'V22 FilesDiffer'),
    (TWO + FILE_A + b'd6:lengthi2e4:pathl1:bee' + END_1, 'V22 FilesDiffer'),
]

# The tree of a of two bytes and the empty files aa and b; that of the empty file b.
ONE_FULL = (b'd4:infod9:file treed1:ad0:d6:lengthi2e11:pieces root32:0123456789abcdef0123456789abcdefee2:aad0:d'
            b'6:lengthi0eee1:bd0:d6:lengthi0eeee5:filesl')
EMPTY = b'd4:infod9:file treed1:bd0:d6:lengthi0eeee5:filesl'

AMONG_EMPTY = [
    (ONE_FULL + FILE_A + EMPTY_AA + EMPTY_B + END_1, 'hybrid f 16384 1: a 2 aa 0 b 0 | a 2 aa 0 b 0'),
    (ONE_FULL + FILE_A + PADDING + EMPTY_AA + EMPTY_B + END_1,
     'hybrid f 16384 1: a 2 aa 0 b 0 | a 2 .pad/16382 16382p aa 0 b 0'),
    (ONE_FULL + FILE_A + EMPTY_AA + PADDING + EMPTY_B + END_1,
     'hybrid f 16384 1: a 2 aa 0 b 0 | a 2 aa 0 .pad/16382 16382p b 0'),
    (ONE_FULL + FILE_A + EMPTY_AA + EMPTY_B + PADDING + END_1,
     'hybrid f 16384 1: a 2 aa 0 b 0 | a 2 aa 0 b 0 .pad/16382 16382p'),
    (ONE_FULL + FILE_A + EMPTY_AA + b'd4:attr1:p6:lengthi5ee' + EMPTY_B + END_1, 'V23 Alignment'),
    (EMPTY + EMPTY_B + END_0, 'hybrid f 16384 0: b 0 | b 0'),
    (EMPTY + b'd4:attr1:p6:lengthi0ee' + EMPTY_B + b'd4:attr1:p6:lengthi0ee' + END_0,
     'hybrid f 16384 0: b 0 | .pad/0 0p b 0 .pad/0 0p'),
    (EMPTY + EMPTY_B + b'd4:attr1:p6:lengthi5ee' + END_1, 'V23 Alignment'),
    (b'd4:infod9:file treed1:ad0:d6:lengthi0eeee6:lengthi0e12:meta versioni2e4:name1:a12:piece lengthi16384e6:pieces'
     b'0:e12:piece layersdee', 'hybrid a 16384 0: a 0 | a 0'),
    (b'd4:infod4:attr1:p9:file treed1:ad0:d6:lengthi2e11:pieces root32:0123456789abcdef0123456789abcdefeee6:lengthi2e'
     b'12:meta versioni2e4:name1:a12:piece lengthi16384e6:pieces20:0123456789abcdef0123ee',
     'hybrid a 16384 1: a 2 | a 2'),
]

# The tree of TWO with an empty folder d; with the empty file aa between its files, and b with a letter; TWO behind
# other keys.
WITH_FOLDER = (b'd4:infod9:file treed1:ad0:d6:lengthi2e11:pieces root32:0123456789abcdef0123456789abcdefee1:bd0:d'
               b'6:lengthi1e11:pieces root32:0123456789abcdef0123456789abcdefee1:ddee5:filesl')
WITH_FILE = (b'd4:infod9:file treed1:ad0:d6:lengthi2e11:pieces root32:0123456789abcdef0123456789abcdefee2:aad0:d'
             b'6:lengthi0eee1:bd0:d4:attr1:x6:lengthi1e11:pieces root32:0123456789abcdef0123456789abcdefeee5:filesl')
DATED = b'd10:created by3:any13:creation datei1700000000e' + TWO[1:]

BETWEEN = [
    (WITH_FOLDER + FILE_A + PADDING + FILE_B + END_2, 'hybrid f 16384 2: a 2 b 1 | a 2 .pad/16382 16382p b 1'),
    (WITH_FILE + FILE_A + PADDING + EMPTY_AA + FILE_B + END_2,
     'hybrid f 16384 2: a 2 aa 0 b 1x | a 2 .pad/16382 16382p aa 0 b 1'),
    (WITH_FILE + FILE_A + EMPTY_AA + PADDING + FILE_B + END_2,
     'hybrid f 16384 2: a 2 aa 0 b 1x | a 2 aa 0 .pad/16382 16382p b 1'),
    (DATED + FILE_A + PADDING + FILE_B + END_2, 'hybrid f 16384 2: a 2 b 1 | a 2 .pad/16382 16382p b 1'),
    (DATED + FILE_A + b'd4:attr1:p6:lengthi16382ee' + FILE_B + END_2,
     'hybrid f 16384 2: a 2 b 1 | a 2 .pad/16382 16382p b 1'),
    (DATED + FILE_A + PADDING + FILE_B + b'd4:attr1:p6:lengthi16383e4:pathl4:.pad5:16383ee' + END_2,
     'hybrid f 16384 2: a 2 b 1 | a 2 .pad/16382 16382p b 1 .pad/16383 16383p'),
]

# TWO up to the properties of b, and from their `length` on; the entry of b with letters; letters in the tree.
B_BEGINS = b'd4:infod9:file treed1:ad0:d6:lengthi2e11:pieces root32:0123456789abcdef0123456789abcdefee1:bd0:d'
B_ENDS = b'6:lengthi1e11:pieces root32:0123456789abcdef0123456789abcdefeee5:filesl'
B_HIDDEN = b'd4:attr1:h6:lengthi1e4:pathl1:bee'
B_EXEC = b'd4:attr1:x6:lengthi1e4:pathl1:bee'
B_BOTH = b'd4:attr2:xh6:lengthi1e4:pathl1:bee'
B_NEITHER = b'd4:attr0:6:lengthi1e4:pathl1:bee'
X = b'4:attr1:x'
HX = b'4:attr2:hx'
# The empty file a alone, in the tree with an x.
ALONE_TREE = b'9:file treed1:ad0:d4:attr1:x6:lengthi0eeee'
ALONE_ENDS = b'6:lengthi0e12:meta versioni2e4:name1:a12:piece lengthi16384e6:pieces0:ee'

LETTERS = [
    (B_BEGINS + X + B_ENDS + FILE_A + PADDING + B_HIDDEN + END_2, 'V25 AttrDiffer'),
    (B_BEGINS + X + B_ENDS + FILE_A + PADDING + B_NEITHER + END_2, 'V25 AttrDiffer'),
    (B_BEGINS + X + B_ENDS + FILE_A + PADDING + B_BOTH + END_2, 'V25 AttrDiffer'),
    (B_BEGINS + HX + B_ENDS + FILE_A + PADDING + B_EXEC + END_2, 'V25 AttrDiffer'),
    (B_BEGINS + b'4:attr0:' + B_ENDS + FILE_A + PADDING + B_HIDDEN + END_2, 'V25 AttrDiffer'),
    (B_BEGINS + HX + B_ENDS + FILE_A + PADDING + B_BOTH + END_2,
     'hybrid f 16384 2: a 2 b 1xh | a 2 .pad/16382 16382p b 1xh'),
    (B_BEGINS + X + B_ENDS + FILE_A + PADDING + FILE_B + END_2,
     'hybrid f 16384 2: a 2 b 1x | a 2 .pad/16382 16382p b 1'),
    (B_BEGINS + B_ENDS + FILE_A + PADDING + B_EXEC + END_2, 'hybrid f 16384 2: a 2 b 1x | a 2 .pad/16382 16382p b 1x'),
    (B_BEGINS + B_ENDS + FILE_A + PADDING + B_BOTH + END_2,
     'hybrid f 16384 2: a 2 b 1xh | a 2 .pad/16382 16382p b 1xh'),
    (B_BEGINS + B_ENDS + FILE_A + b'd4:attr3:hpx6:lengthi16382ee' + FILE_B + END_2,
     'hybrid f 16384 2: a 2 b 1 | a 2 .pad/16382 16382p b 1'),
    (B_BEGINS + b'4:attr1:z' + B_ENDS + FILE_A + PADDING + B_NEITHER + END_2,
     'hybrid f 16384 2: a 2 b 1 | a 2 .pad/16382 16382p b 1'),
    (b'd4:infod4:attr1:h' + ALONE_TREE + ALONE_ENDS, 'V25 AttrDiffer'),
    (b'd4:infod4:attr2:xp' + ALONE_TREE + ALONE_ENDS, 'hybrid a 16384 0: a 0x | a 0x'),
    (b'd4:infod' + ALONE_TREE + ALONE_ENDS, 'hybrid a 16384 0: a 0x | a 0'),
]


def test_padding(program, folder):
    expect_rows(program, folder, ALIGNED)


def test_padding_among_empty_files(program, folder):
    expect_rows(program, folder, AMONG_EMPTY)


def test_other_keys_and_empty_folders(program, folder):
    expect_rows(program, folder, BETWEEN)


def test_letters(program, folder):
    expect_rows(program, folder, LETTERS)


def test_entries(program, folder):
    expect_laid_out(program, folder, ALIGNED + AMONG_EMPTY + BETWEEN + LETTERS)


def test_each_bit_turned(program, folder):
    """With one bit turned `check` tells what the reference does, and accepts only the spelling of a tree."""
    again, text = Again(program, folder, ROOM), FOLDER_HYBRID
    turned = [text[:i] + bytes([text[i] ^ 1 << bit]) + text[i + 1:] for i in range(len(text)) for bit in range(8)]
    for first in range(0, len(turned), 100):
        hundred = turned[first:first + 100]
        try_texts(again, folder / 'absent', hundred, [False] * len(hundred))
