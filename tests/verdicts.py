"""Torrents of version 1 or 2 that are given by their bytes, worked out from BEP 3, BEP 47 and BEP 52: what is told.

Hashes are any bytes: no condition of these rows compares one. Hybrids are in sides.py, those with layers in layers.py.
"""
from described import expect_laid_out, expect_rows
from rows import ABC, FOLDER_V1

# Each condition.
REFUSED = [
    (b'', 'V1 Bencode B1 Truncated at 0'),
    (b'd1:b0:1:a0:e', 'V1 Bencode B7 KeyOrder at 6'),
    (b'le', 'V2 RootShape'),
    (b'de', 'V3 InfoShape'),
    (b'd4:infod12:meta versioni3eee', 'V4 MetaVersion'),
    (b'd4:infodee', 'V5 PieceLength'),
    (b'd4:infod4:name3:a/b12:piece lengthi1eee', 'V6 Name'),
    (b'd4:infod4:name1:a12:piece lengthi1eee', 'V7 LengthAndFiles'),
    (b'd4:infod6:length1:a4:name1:a12:piece lengthi1eee', 'V8 FileShape'),
    (b'd4:infod6:lengthi-1e4:name1:a12:piece lengthi1eee', 'V9 FileLength'),
    (b'd4:infod5:filesld6:lengthi2e4:pathl1:aeed6:lengthi1e4:pathl1:aeee4:name1:f12:piece lengthi1eee',
     'V10 Duplicate'),
    (b'd4:infod5:filesld6:lengthi2e4:pathl1:aeed6:lengthi1e4:pathl1:a1:beee4:name1:f12:piece lengthi1eee',
     'V11 FileAndFolder'),
    (b'd4:infod5:filesle4:name1:f12:piece lengthi1eee', 'V12 NoFiles'),
    (b'd4:infod6:lengthi1125899906842625e4:name1:a12:piece lengthi1eee', 'V13 TooLarge'),
    (b'd4:infod4:attr1:l6:lengthi1e4:name1:a12:piece lengthi1eee', 'V14 Symlink'),
    (b'd4:infod6:lengthi1e4:name1:a12:piece lengthi1e6:pieces0:ee', 'V15 PiecesLength'),
    (b'd4:infod9:file treed0:d6:lengthi0eee12:meta versioni2e4:name1:a12:piece lengthi16384eee', 'V16 MixedNode'),
    (b'd4:infod9:file treed1:ad0:d6:lengthi1eeee12:meta versioni2e4:name1:a12:piece lengthi16384eee', 'V17 RootHash'),
]

# Two conditions hold: the one with the lower number is told.
IN_ORDER = [
    (b'd4:infod12:meta versioni3e4:name3:a/bee', 'V4 MetaVersion'),
    (b'd4:infod4:name3:a/b12:piece lengthi0eee', 'V5 PieceLength'),
    (b'd4:infod5:filesle6:lengthi1e4:name3:a/b12:piece lengthi16384eee', 'V6 Name'),
    (b'd4:infod5:filesld6:lengthi-1e4:pathleee6:lengthi1e4:name1:f12:piece lengthi16384eee', 'V7 LengthAndFiles'),
    (b'd4:infod5:filesld6:lengthi-1e4:pathleee4:name1:f12:piece lengthi16384eee', 'V8 FileShape'),
    (b'd4:infod5:filesld6:lengthi-1e4:pathl1:aeed6:lengthi1e4:pathl1:aeee4:name1:f12:piece lengthi16384eee',
     'V9 FileLength'),
    (b'd4:infod5:filesld6:lengthi1e4:pathl1:aeed6:lengthi1e4:pathl1:aeee4:name1:f12:piece lengthi16384eee',
     'V10 Duplicate'),
    (b'd4:infod5:filesld6:lengthi1e4:pathl1:aeed6:lengthi1e4:pathl1:a1:beee4:name1:f12:piece lengthi16384eee',
     'V11 FileAndFolder'),
    (b'd4:infod9:file treede12:meta versioni2e4:name1:f12:piece lengthi16384ee12:piece layersi0ee', 'V12 NoFiles'),
    (b'd4:infod5:filesld4:attr1:l6:lengthi1125899906842625e4:pathl1:aeee4:name1:f12:piece lengthi16384eee',
     'V13 TooLarge'),
    (b'd4:infod5:filesld4:attr1:l6:lengthi1e4:pathl1:aeee4:name1:f12:piece lengthi16384eee', 'V14 Symlink'),
    (b'd4:infod9:file treed0:d6:lengthi0ee1:ad0:d6:lengthi0eeee6:lengthi1e12:meta versioni2e4:name1:a12:piece length'
     b'i16384e6:pieces0:ee', 'V15 PiecesLength'),
    (b'd4:infod9:file treed0:d6:lengthi1ee1:ad0:d6:lengthi0eeee12:meta versioni2e4:name1:a12:piece lengthi16384eee',
     'V16 MixedNode'),
    (b'd4:infod9:file treed1:ad0:d6:lengthi16385eeee12:meta versioni2e4:name1:a12:piece lengthi16384eee',
     'V17 RootHash'),
    (b'd4:infod9:file treed1:ad0:d6:lengthi2e11:pieces root32:0123456789abcdef0123456789abcdefeee5:filesld6:lengthi1e'
     b'4:pathl1:beed4:attr1:p6:lengthi5eee12:meta versioni2e4:name1:f12:piece lengthi16384e'
     b'6:pieces20:0123456789abcdef0123e12:piece layersdee', 'V22 FilesDiffer'),
]

# What stands before and after the first keys of an `info` of version 1.
INFO = b'd4:infod'
INFO_END = b'12:piece lengthi16384e6:pieces20:0123456789abcdef0123ee'
# What stands before a tree, and after it up to the piece length; the file a of 3 bytes, and of 16,385.
TREE = b'd4:infod9:file treed'
LENGTH_LAST = b'e12:meta versioni2e4:name1:a12:piece length'
GOOD = b'1:ad0:d6:lengthi3e11:pieces root32:0123456789abcdef0123456789abcdefee'
LONG = b'1:ad0:d6:lengthi16385e11:pieces root32:0123456789abcdef0123456789abcdefee'

# What a change makes of torrents that are right.
CHANGED = [
    (INFO + b'5:filesld6:lengthi2e4:pathl1:aeed6:lengthi1e4:pathl1:beee4:name3:a/b' + INFO_END, 'V6 Name'),
    (INFO + b'5:filesld6:lengthi2e4:pathl1:aeed6:lengthi1e4:pathl1:beee6:lengthi3e4:name1:f' + INFO_END,
     'V7 LengthAndFiles'),
    (INFO + b'5:filesld6:lengthi2e4:pathl0:eed6:lengthi1e4:pathl1:beee4:name1:f' + INFO_END, 'V8 FileShape'),
    (INFO + b'5:filesld4:attri1e6:lengthi2e4:pathl1:aeee4:name1:f' + INFO_END, 'V8 FileShape'),
    (INFO + b'5:filesld6:lengthi-1e4:pathl1:aeed6:lengthi1e4:pathl1:beee4:name1:f' + INFO_END, 'V9 FileLength'),
    (INFO + b'5:filesld6:lengthi2e4:pathl1:aeed6:lengthi1e4:pathl1:aeee4:name1:f' + INFO_END, 'V10 Duplicate'),
    (INFO + b'5:filesld6:lengthi2e4:pathl1:aeed6:lengthi1e4:pathl1:a1:beee4:name1:f' + INFO_END, 'V11 FileAndFolder'),
    (INFO + b'5:filesle4:name1:f' + INFO_END, 'V12 NoFiles'),
    (INFO + b'5:filesld4:attr1:p6:lengthi5eee4:name1:f' + INFO_END, 'V12 NoFiles'),
    (INFO + b'5:filesld6:lengthi1125899906842625e4:pathl1:aeed6:lengthi1e4:pathl1:beee4:name1:f' + INFO_END,
     'V13 TooLarge'),
    (INFO + b'5:filesld4:attr1:l6:lengthi2e4:pathl1:aeed6:lengthi1e4:pathl1:beee4:name1:f' + INFO_END, 'V14 Symlink'),
    (INFO + b'5:filesld6:lengthi16385e4:pathl1:aeed6:lengthi1e4:pathl1:beee4:name1:f' + INFO_END, 'V15 PiecesLength'),
    (INFO + b'5:filesld6:lengthi0e4:pathl1:aeed6:lengthi0e4:pathl1:beee4:name1:f' + INFO_END, 'V15 PiecesLength'),
    (TREE + GOOD + LENGTH_LAST + b'i100000eee', 'V5 PieceLength'),
    (TREE + GOOD + LENGTH_LAST + b'i8192eee', 'V5 PieceLength'),
    (TREE + b'1:ade' + LENGTH_LAST + b'i16384eee', 'V12 NoFiles'),
    (TREE + b'1:ad0:d6:lengthi3e11:pieces root32:0123456789abcdef0123456789abcdefe1:bd0:d6:lengthi0eeee' + LENGTH_LAST
     + b'i16384eee', 'V16 MixedNode'),
    (TREE + b'1:ad0:d6:lengthi3e11:pieces root31:0123456789abcdef0123456789abcdeee' + LENGTH_LAST + b'i16384eee',
     'V17 RootHash'),
    (TREE + LONG + LENGTH_LAST + b'i16384eee', 'V18 LayersAbsent'),
]

WORKED = [
    (FOLDER_V1, 'v1 f 16384 1: a 2 b 1 | a 2 b 1'),
    (ABC, 'v2 a 16384 1: a 3'),
    (TREE + GOOD + LENGTH_LAST + b'i16384eee', 'v2 a 16384 1: a 3'),
    (TREE + LONG + LENGTH_LAST + b'i32768eee', 'v2 a 32768 1: a 16385'),
    (b'd4:infod9:file treed1:ad0:d6:lengthi0eeee12:meta versioni2e4:name1:a12:piece lengthi16384ee12:piece layersdee',
     'v2 a 16384 0: a 0'),
    (b'd4:infod6:lengthi0e4:name1:a12:piece lengthi16384e6:pieces0:ee', 'v1 a 16384 0: a 0 | a 0'),
    (b'd4:infod5:filesld6:lengthi1e4:pathl1:a1:ceed6:lengthi1e4:pathl3:a-beee4:name1:f12:piece lengthi16384e'
     b'6:pieces20:0123456789abcdef0123ee', 'v1 f 16384 1: a/c 1 a-b 1 | a/c 1 a-b 1'),
    (b'd4:infod9:file treed1:ad1:cd0:d6:lengthi1e11:pieces root32:0123456789abcdef0123456789abcdefeee3:a-bd0:d'
     b'6:lengthi1e11:pieces root32:0123456789abcdef0123456789abcdefeee12:meta versioni2e4:name1:f12:piece length'
     b'i16384ee12:piece layersdee', 'v2 f 16384 2: a/c 1 a-b 1'),
    (b'd4:infod9:file treed1:ad0:d6:lengthi3e11:pieces root32:0123456789abcdef0123456789abcdefeee12:meta versioni2e'
     b'4:name1:a12:piece lengthi16384eee', 'v2 a 16384 1: a 3'),
    (b'd4:infod5:filesld6:lengthi2e4:pathl1:aeed6:lengthi1e4:pathl1:beee4:name1:f12:piece lengthi100000e'
     b'6:pieces20:0123456789abcdef0123ee', 'v1 f 100000 1: a 2 b 1 | a 2 b 1'),
    (b'd4:infod5:filesld6:lengthi1e4:pathl1:beed6:lengthi1e4:pathl1:aeee4:name1:f12:piece lengthi1e'
     b'6:pieces40:0123456789abcdef01230123456789abcdef0123ee', 'v1 f 1 2: b 1 a 1 | b 1 a 1'),
]

# What stands before and after the entries of the folder `f`, one piece in all; an entry of two bytes.
LIST = b'd4:infod5:filesl'
LIST_END = b'e4:name1:f12:piece lengthi16384e6:pieces20:0123456789abcdef0123ee'
FILE_A = b'd6:lengthi2e4:pathl1:aee'

# Padding may stand anywhere, whatever its path.
PADDED = [
    (LIST + FILE_A + b'd4:attr1:p6:lengthi5ee' + LIST_END, 'v1 f 16384 1: a 2 | a 2 .pad/5 5p'),
    (LIST + FILE_A + b'd4:attr1:p6:lengthi5e4:pathi7ee' + LIST_END, 'v1 f 16384 1: a 2 | a 2 .pad/5 5p'),
    (LIST + FILE_A + b'd4:attr1:p6:lengthi5e4:pathlee' + LIST_END, 'v1 f 16384 1: a 2 | a 2 .pad/5 5p'),
    (LIST + FILE_A + b'd4:attr1:p6:lengthi5e4:pathl2:..i3eee' + LIST_END, 'v1 f 16384 1: a 2 | a 2 .pad/5 5p'),
    (LIST + FILE_A + b'd4:attr1:p6:lengthi5e4:pathl1:aee' + LIST_END, 'v1 f 16384 1: a 2 | a 2 .pad/5 5p'),
    (LIST + FILE_A + b'd4:attr1:p6:lengthi0e4:pathl4:.pad1:0ee' + LIST_END, 'v1 f 16384 1: a 2 | a 2 .pad/0 0p'),
    (LIST + b'd4:attr1:p6:lengthi5ee' + FILE_A + LIST_END, 'v1 f 16384 1: a 2 | .pad/5 5p a 2'),
    (LIST + b'd4:attr1:p6:lengthi5eed4:attr3:zph6:lengthi7ee' + FILE_A + LIST_END,
     'v1 f 16384 1: a 2 | .pad/5 5p .pad/7 7p a 2'),
    (LIST + b'd6:lengthi0e4:pathl1:aeed4:attr1:p6:lengthi5eed6:lengthi0e4:pathl1:bee' + LIST_END,
     'v1 f 16384 1: a 0 b 0 | a 0 .pad/5 5p b 0'),
]

# The keys from `name` to `pieces`, one piece in all.
SUMS = b'4:name1:a12:piece lengthi16384e6:pieces20:0123456789abcdef0123'

# Other keys, letters of `attr`, and values of `private`.
OTHER_KEYS = [
    (LIST + b'd4:attr2:hx6:lengthi2e4:pathl1:aee' + LIST_END, 'v1 f 16384 1: a 2xh | a 2xh'),
    (LIST + b'd4:attr1:x6:lengthi2e4:pathl1:aee' + LIST_END, 'v1 f 16384 1: a 2x | a 2x'),
    (LIST + b'd4:attr1:h6:lengthi2e4:pathl1:aee' + LIST_END, 'v1 f 16384 1: a 2h | a 2h'),
    (LIST + b'd4:attr4:qL9P6:lengthi2e4:pathl1:aee' + LIST_END, 'v1 f 16384 1: a 2 | a 2'),
    (LIST + b'd4:attr0:6:lengthi2e4:pathl1:aee' + LIST_END, 'v1 f 16384 1: a 2 | a 2'),
    (LIST + b'd0:le6:lengthi2e6:md5sumle5:mtimei-1e4:pathl1:ae10:path.utf-8i3e4:sha1dee' + LIST_END,
     'v1 f 16384 1: a 2 | a 2'),
    (b'd4:infod6:lengthi2e' + SUMS + b'7:privatei1eee', 'v1 a 16384 1: a 2 | a 2 private'),
    (b'd4:infod6:lengthi2e' + SUMS + b'7:privatei2eee', 'v1 a 16384 1: a 2 | a 2'),
    (b'd4:infod6:lengthi2e' + SUMS + b'7:privatei0eee', 'v1 a 16384 1: a 2 | a 2'),
    (b'd4:infod6:lengthi2e' + SUMS + b'7:private1:1ee', 'v1 a 16384 1: a 2 | a 2'),
    (b'd4:infod6:lengthi2e' + SUMS + b'7:privateli1eeee', 'v1 a 16384 1: a 2 | a 2'),
    (b'd4:infod4:attr1:p6:lengthi2e' + SUMS + b'ee', 'v1 a 16384 1: a 2 | a 2'),
    (b'd4:infod4:attr3:phx6:lengthi2e' + SUMS + b'ee', 'v1 a 16384 1: a 2xh | a 2xh'),
    (b'd4:infod9:file treei3e6:lengthi2e6:md5sumi1e' + SUMS + b'6:sourcelee12:piece layersi5ee',
     'v1 a 16384 1: a 2 | a 2'),
    (b'd0:0:8:announcei5e13:announce-listle7:comment1:c10:created by1:m13:creation datei-1e8:encodingde4:infod'
     b'6:lengthi2e' + SUMS + b'e5:nodesle8:url-listi0ee', 'v1 a 16384 1: a 2 | a 2'),
]

# What stands after a tree of the folder `f`; a tree of a of two bytes and b of one.
TREE_END = b'e5:filesi1e6:lengthle12:meta versioni2e4:name1:f12:piece lengthi16384ee'
TWO_FILES = (b'1:ad0:d6:lengthi2e11:pieces root32:0123456789abcdef0123456789abcdefee1:bd0:d6:lengthi1e'
             b'11:pieces root32:0123456789abcdef0123456789abcdefee')

TREES = [
    (TREE + TWO_FILES + TREE_END + b'e', 'v2 f 16384 2: a 2 b 1'),
    (TREE + b'1:ad0:d6:lengthi0eee1:dde' + TREE_END + b'e', 'v2 f 16384 0: a 0'),
    (TREE + b'1:ad0:d6:lengthi0eee1:dd1:edee' + TREE_END + b'e', 'v2 f 16384 0: a 0'),
    (TREE + b'1:ad0:d6:lengthi0e11:pieces rooti5eee' + TREE_END + b'e', 'v2 f 16384 0: a 0'),
    (TREE + b'1:ad0:d6:lengthi0e11:pieces root32:0123456789abcdef0123456789abcdefee' + TREE_END + b'e',
     'v2 f 16384 0: a 0'),
    (TREE + b'1:ad0:d4:attr1:p6:lengthi0eee' + TREE_END + b'e', 'v2 f 16384 0: a 0'),
    (TREE + b'1:ad0:d4:attr1:x6:lengthi0eee' + TREE_END + b'e', 'v2 f 16384 0: a 0x'),
    (TREE + b'1:ad0:d4:attr2:qh6:lengthi0eee' + TREE_END + b'e', 'v2 f 16384 0: a 0h'),
    (TREE + b'1:ad0:d0:i1e6:lengthi0e6:md5sumi1e5:mtimeleee' + TREE_END + b'e', 'v2 f 16384 0: a 0'),
    (TREE + TWO_FILES + TREE_END + b'12:piece layersdee', 'v2 f 16384 2: a 2 b 1'),
    (TREE + TWO_FILES + TREE_END + b'12:piece layersd0:le32:0123456789abcdef0123456789abcdef5:aaaaa1:xi1eee',
     'v2 f 16384 2: a 2 b 1'),
]


def test_refusals(program, folder):
    expect_rows(program, folder, REFUSED)


def test_first_of_two_conditions(program, folder):
    expect_rows(program, folder, IN_ORDER)


def test_changes(program, folder):
    expect_rows(program, folder, CHANGED)


def test_torrents(program, folder):
    expect_rows(program, folder, WORKED + TREES)


def test_what_is_read_leniently(program, folder):
    expect_rows(program, folder, PADDED + OTHER_KEYS)


def test_entries(program, folder):
    expect_laid_out(program, folder, WORKED + PADDED + OTHER_KEYS)
