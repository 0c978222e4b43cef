"""What `check --explain` tells of bytes that are no torrent: the refusal, and below it where and why."""
from foreign import wanted_lines
from support import Told, expect

# Bytes that spell no tree.
BENCODE = [
    (b'', 'byte 0: the bytes end before the torrent does: [the end]'),
    (b'd1:b0:1:a0:e', 'byte 6: a key is not above the key before it, as raw bytes: d1:b0:[1]:a0:e'),
    (b'd31:aaaaaaaaaaaaaaaaaaaaaaaaaaaaaaa\0',
     'byte 35: no value begins with this byte: ..aaaaaaaaaaaaaaaaaaaa[\\x00]'),
    (b'dee\\\xff', 'byte 2: a byte follows the torrent: de[e]\\x5c\\xff'),
    (b'i01e0123456789012345678',
     'byte 0: an integer is not in its shortest form, or does not end with an e: [i]01e01234567890123456..'),
]

# The keys that all torrents have. Of a name of 301 bytes 241 are cited.
KEYS = [
    (b'le', 'the root: a list, where a dictionary has to be'),
    (b'de', 'info: not there, where a dictionary has to be'),
    (b'd4:infoi1ee', 'info: an integer, where a dictionary has to be'),
    (b'd4:infod12:meta versioni3eee', 'meta version: 3, where 2 has to be'),
    (b'd4:infod12:meta version1:2ee', 'meta version: a byte string, where an integer has to be'),
    (b'd4:infodee', 'piece length: not there, where an integer has to be'),
    (b'd4:infod12:piece lengthi0eee', 'piece length: 0, where a number from 1 to 1073741824 has to be'),
    (b'd4:infod12:meta versioni2e12:piece lengthi16385eee',
     'piece length: 16385, where a power of two from 16384 to 1073741824 has to be'),
    (b'd4:infod12:piece lengthi1eee', 'name: not there, where a byte string has to be'),
    (b'd4:infod4:name3:a/b12:piece lengthi1eee',
     'name: a/b is refused as N4 Slash: a slash parts the names of a path, at its byte 1'),
    (b'd4:infod4:name2:..12:piece lengthi1eee', 'name: .. is refused as N3 DotDot: it leads to the folder above'),
    (b'd4:infod4:name0:12:piece lengthi1eee',
     'name: the empty name is refused as N1 Empty: a name has one byte at least'),
    (b'd4:infod4:name3:a\n\xff12:piece lengthi1eee',
     'name: a\\x0a\\xff is refused as N6 NotUtf8: it is no text in UTF-8, at its byte 2'),
    (b'd4:infod4:name301:' + b'a' * 300 + b'/12:piece lengthi1eee',
     'name: ' + 'a' * 241 + '.. is refused as N4 Slash: a slash parts the names of a path, at its byte 300'),
    (b'd4:infod4:name3:a\0b12:piece lengthi1eee',
     'name: a\\x00b is refused as N5 Nul: no name of a file has a zero byte, at its byte 1'),
    (b'd4:infod4:name1:a12:piece lengthi1eee', 'info: neither length nor files is there, where one of them has to be'),
    (b'd4:infod5:filesle6:lengthi1e4:name1:a12:piece lengthi1eee',
     'info: length and files are both there, where one of them has to be'),
]

# What follows the files of a torrent that is read no further.
REST = b'4:name1:f12:piece lengthi1eee'

SHAPES = [
    (b'd4:infod6:length1:a' + REST, 'length: a byte string, where an integer has to be'),
    (b'd4:infod5:files1:a' + REST, 'files: a byte string, where a list has to be'),
    (b'd4:infod5:filesli7ee' + REST, 'files, entry 0: an integer, where a dictionary has to be'),
    (b'd4:infod5:filesld6:lengthi1e4:pathl1:aeed6:lengthi1eee' + REST,
     'files, entry 1: path: not there, where a list has to be'),
    (b'd4:infod5:filesld4:attri1e6:lengthi1e4:pathl1:aeee' + REST,
     'files, entry 0: attr: an integer, where a byte string has to be'),
    (b'd4:infod5:filesld6:lengthi1e4:pathl1:a2:..eee' + REST,
     'files, entry 0: path, .. is refused as N3 DotDot: it leads to the folder above'),
    (b'd4:infod5:filesld6:lengthi1e4:pathleee' + REST,
     'files, entry 0: path: an empty list, where one name at least has to be'),
    (b'd4:infod5:filesld6:lengthi1e4:pathli5eeee' + REST,
     'files, entry 0: path, a name: an integer, where a byte string has to be'),
]

FILES = [
    (b'd4:infod6:lengthi-1e' + REST, 'length: -1, which is below 0'),
    (b'd4:infod5:filesld4:attr1:p6:lengthi-5eee' + REST, 'files, entry 0: length: -5, which is below 0'),
    (b'd4:infod5:filesld6:lengthi1e4:pathl3:a\n\\eed4:attr1:p6:lengthi1eed6:lengthi2e4:pathl3:a\n\\eee' + REST,
     'files, entries 0 and 2: the path of both is a\\x0a\\x5c'),
    (b'd4:infod5:filesld6:lengthi1e4:pathl1:b1:ceed6:lengthi1e4:pathl1:aeed6:lengthi2e4:pathl1:beee' + REST,
     'files, entry 2: b is a file, and a folder of entry 0'),
    (b'd4:infod5:filesle' + REST, 'files: no entry is a file, where one at least has to be'),
    (b'd4:infod5:filesld4:attr1:p6:lengthi5eee' + REST, 'files: no entry is a file, where one at least has to be'),
    (b'd4:infod6:lengthi1125899906842625e' + REST, 'length: 1125899906842625, which is above 1125899906842624'),
    (b'd4:infod4:attr2:xl6:lengthi1e' + REST, 'attr: xl, whose l is a symbolic link'),
    (b'd4:infod6:lengthi3e' + REST, 'pieces: not there, where a byte string has to be'),
    (b'd4:infod6:lengthi3e4:name1:f12:piece lengthi2e6:pieces3:abcee',
     'pieces: 3 bytes, where 20 for each of 2 pieces have to be'),
]

# What follows a file tree; any 32 bytes; a file longer than a piece with this root, and what follows up to its layers.
TREE_REST = b'12:meta versioni2e4:name1:f12:piece lengthi16384eee'
ROOT = b'abcdefghijklmnopqrstuvwxyz012345'
LONG = b'd4:infod9:file treed3:subd2:f9d0:d6:lengthi16385e11:pieces root32:' + ROOT
THEN_LAYERS = b'eeee12:meta versioni2e4:name1:f12:piece lengthi16384ee12:piece layers'

TREES = [
    (b'd4:infod' + TREE_REST, 'file tree: not there, where a dictionary has to be'),
    (b'd4:infod9:file treed1:a1:be' + TREE_REST, 'file tree: a: a byte string, where a dictionary has to be'),
    (b'd4:infod9:file treed1:ad2:..deee' + TREE_REST,
     'file tree: a/..: .. is refused as N3 DotDot: it leads to the folder above'),
    (b'd4:infod9:file treed1:ad0:d6:lengthi0eee1:bd1:cd0:deeee' + TREE_REST,
     'file tree: b/c: length: not there, where an integer has to be'),
    (b'd4:infod9:file treed1:ad0:i1eee' + TREE_REST,
     'file tree: a: its properties: an integer, where a dictionary has to be'),
    (b'd4:infod9:file treed1:ad0:d6:lengthi-7eeee' + TREE_REST, 'file tree: a: length: -7, which is below 0'),
    (b'd4:infod9:file treed1:adee' + TREE_REST, 'file tree: no file, where one at least has to be'),
    (b'd4:infod9:file treed0:d6:lengthi0eee' + TREE_REST, 'file tree: the empty key, where names have to be'),
    (b'd4:infod9:file treed1:ad0:d6:lengthi0ee1:bd0:d6:lengthi0eeeee' + TREE_REST,
     'file tree: a: a folder that is a file too'),
    (b'd4:infod9:file treed1:ad0:d6:lengthi1eeee' + TREE_REST,
     'file tree: a: pieces root: not there, where a byte string has to be'),
    (b'd4:infod9:file treed1:ad0:d6:lengthi1e11:pieces root1:xeee' + TREE_REST,
     'file tree: a: pieces root: 1 bytes, where 32 have to be'),
]

LAYERS = [
    (LONG + b'eeee' + TREE_REST, 'piece layers: not there, and sub/f9 is longer than a piece'),
    (LONG + THEN_LAYERS + b'lee', 'piece layers: a list, where a dictionary has to be'),
    (LONG + THEN_LAYERS + b'dee', 'piece layers: no hash list for the root of sub/f9'),
    (LONG + THEN_LAYERS + b'd32:' + ROOT + b'32:' + ROOT + b'ee',
     'piece layers: 32 bytes for sub/f9, where 32 for each of 2 pieces have to be'),
    (LONG + THEN_LAYERS + b'd32:' + ROOT + b'64:' + ROOT + ROOT + b'ee',
     'piece layers: the hashes for sub/f9 do not give its pieces root'),
]

# A tree with the file a of one byte; the same with letters that are none of ours; the files a and b of one byte each.
TREE = b'd4:infod9:file treed1:ad0:d6:lengthi1e11:pieces root32:abcdefghijklmnopqrstuvwxyz012345eee5:filesl'
LETTERED = b'd4:infod9:file treed1:ad0:d4:attr0:6:lengthi1e11:pieces root32:abcdefghijklmnopqrstuvwxyz012345eee5:filesl'
BOTH = (b'd4:infod9:file treed1:ad0:d6:lengthi1e11:pieces root32:abcdefghijklmnopqrstuvwxyz012345ee1:bd0:d6:lengthi1e'
        b'11:pieces root32:abcdefghijklmnopqrstuvwxyz012345eee5:filesl')
HYBRID_REST = b'e12:meta versioni2e4:name1:f12:piece lengthi16384e6:pieces20:abcdefghijklmnopqrstee'

HYBRIDS = [
    (TREE + b'd6:lengthi2e4:pathl1:aee' + HYBRID_REST,
     'files, entry 0: a of 2 bytes, where file tree has a of 1 bytes'),
    (TREE + b'd6:lengthi1e4:pathl1:aeed6:lengthi1e4:pathl1:b1:cee' + HYBRID_REST,
     'files, entry 1: b/c of 1 bytes, where file tree has no more file'),
    (BOTH + b'd6:lengthi1e4:pathl1:aee' + HYBRID_REST, 'file tree: b: not in files'),
    (BOTH + b'd6:lengthi1e4:pathl1:aeed6:lengthi1e4:pathl1:bee' + HYBRID_REST,
     'files, entry 1: it begins at byte 1 of all files, where its first piece begins at byte 16384'),
    (TREE + b'd6:lengthi1e4:pathl1:aeed4:attr1:p6:lengthi5ee' + HYBRID_REST,
     'files: 5 bytes of padding at the end, where none or 16383 have to be'),
    (LETTERED + b'd4:attr2:xh6:lengthi1e4:pathl1:aee' + HYBRID_REST,
     'attr of a: x and h on the v1 side, neither x nor h in file tree'),
]


def expect_reasons(program, folder, rows):
    """That the reference's line is told, and below it the reason."""
    for text, reason in rows:
        (folder / 'torrent').write_bytes(text)
        wanted = wanted_lines(text)
        told = Told(1, b'', wanted.err + f'tor: {reason}\n'.encode())
        expect(program, ['check', '--explain', str(folder / 'torrent')], told, note=f'{text!r:.300}\n')


def test_bencode(program, folder):
    expect_reasons(program, folder, BENCODE)


def test_keys(program, folder):
    expect_reasons(program, folder, KEYS)


def test_lists(program, folder):
    expect_reasons(program, folder, SHAPES + FILES)


def test_trees(program, folder):
    expect_reasons(program, folder, TREES)


def test_layers(program, folder):
    expect_reasons(program, folder, LAYERS)


def test_hybrids(program, folder):
    expect_reasons(program, folder, HYBRIDS)


def test_a_path_twice(program, folder):
    (folder / 'a').write_bytes(b'abc')
    words = ['make', '--name', 'f', '--explain', '--files-from', '-', str(folder)]
    expect(program, words, Told(1, b'', b'tor: L1 Duplicate\ntor: two files have the same path: name each file once\n'),
           b'a\0a\0')
