"""Worked examples that the reference has to meet, with bytes and hashes worked out by hand from the standards."""
import hashlib

import reference
from reference import BLOCK, ZERO, BadBencode, Order, Refused, decode, judge, make
from support import expect_equal

A = hashlib.sha256(b'ab').digest()
B = hashlib.sha256(b'c').digest()
ABC = (b'd4:infod9:file treed1:ad0:d6:lengthi3e11:pieces root32:' + hashlib.sha256(b'abc').digest()
       + b'eee12:meta versioni2e4:name1:a12:piece lengthi16384ee12:piece layersdee')
FOLDER_V1 = (b'd4:infod5:filesld6:lengthi2e4:pathl1:aeed6:lengthi1e4:pathl1:beee4:name1:f12:piece lengthi16384e'
             b'6:pieces20:' + hashlib.sha1(b'abc').digest() + b'ee')
P = hashlib.sha1(b'ab' + bytes(16382)).digest() + hashlib.sha1(b'c').digest()
PADDING = b'd4:attr1:p6:lengthi16382e4:pathl4:.pad5:16382ee'
FOLDER_HYBRID = (b'd4:infod9:file treed1:ad0:d6:lengthi2e11:pieces root32:' + A
                 + b'ee1:bd0:d6:lengthi1e11:pieces root32:' + B + b'eee5:filesld6:lengthi2e4:pathl1:aee' + PADDING
                 + b'd6:lengthi1e4:pathl1:beee12:meta versioni2e4:name1:f12:piece lengthi16384e6:pieces40:' + P
                 + b'e12:piece layersdee')
PAIR = [((b'a',), b'ab'), ((b'b',), b'c')]


def order(kind, single=False, name=b'f', piece_length=BLOCK, announce=None, is_private=False):
    return Order(kind, single, name, piece_length, announce, is_private, 'one', 1, 16)


def code_of(text):
    try:
        judge(text)
        return None
    except Refused as refusal:
        return refusal.line


def bencode_fault(text):
    try:
        decode(text)
        return None
    except BadBencode as fault:
        return fault.code, fault.offset


def test_reference_reads_bencode(_program, _folder):
    rows = [(b'i-0e', ('B3', 0)), (b'i03e', ('B3', 0)), (b'd1:b0:1:a0:e', ('B7', 6)), (b'4:abc', ('B1', 5)),
            (b'0:x', ('B9', 2)), (b'', ('B1', 0)), (b'l' * 101, ('B8', 100)), (b'i9223372036854775807e', None),
            (b'i-9223372036854775808e', None), (b'i9223372036854775808e', ('B4', 0)), (b'ie', ('B3', 0)),
            (b'ix', ('B3', 0)), (b'i1-2e', ('B3', 0)), (b'i12', ('B1', 3)), (b'01:a', ('B5', 0)),
            (b'3abc', ('B5', 0)), (b'99999999999999999999:a', ('B1', 22)), (b'di1e1:ae', ('B6', 1)),
            (b'd1:ae', ('B2', 4)), (b'd1:ai1e1:ai2ee', ('B7', 7)), (b'l' * 100 + b'e' * 100, None),
            (b'1' * 5000, ('B1', 5000))]
    for text, fault in rows:
        expect_equal(repr(text), fault, bencode_fault(text))


def test_reference_makes(_program, _folder):
    abc, empty = [((b'a',), b'abc')], [((b'a',), b'')]
    single = {'single': True, 'name': b'a'}
    expect_equal('v2 of a file', ABC, make(abc, order('v2', **single)))
    expect_equal('v1 of a folder', FOLDER_V1, make(PAIR, order('v1')))
    expect_equal('hybrid of a folder', FOLDER_HYBRID, make(PAIR, order('hybrid')))
    expect_equal('lengths', [158, 129, 382], [len(ABC), len(FOLDER_V1), len(FOLDER_HYBRID)])
    expect_equal('v2 of an empty file', b'd4:infod9:file treed1:ad0:d6:lengthi0eeee12:meta versioni2e4:name1:a12:piece '
                 b'lengthi16384ee12:piece layersdee', make(empty, order('v2', **single)))
    expect_equal('v1 of an empty file', b'd4:infod6:lengthi0e4:name1:a12:piece lengthi16384e6:pieces0:ee',
                 make(empty, order('v1', **single)))
    tracked = make(abc, order('v2', announce=b'http://t/', is_private=True, **single))
    expect_equal('with a tracker, and private', ABC.replace(b'd4:info', b'd8:announce9:http://t/4:info', 1)
                 .replace(b'i16384e', b'i16384e7:privatei1e'), tracked)
    nested = make([((b'a-b',), b''), ((b'a', b'c'), b'')], order('v1'))
    expect_equal('a folder before a file', True, nested.index(b'l1:a1:ce') < nested.index(b'l3:a-be'))


def test_reference_makes_letters(_program, _folder):
    single = {'single': True, 'name': b'a'}
    executable = make([((b'a',), b'abc')], order('v2', **single), {(b'a',): b'x'})
    expect_equal('v2 of an executable file', ABC.replace(b'd0:d6:length', b'd0:d4:attr1:x6:length'), executable)
    both = make(PAIR, order('v1'), {(b'a',): b'hx'})
    expect_equal('v1 of a folder', FOLDER_V1.replace(b'ld6:lengthi2e', b'ld4:attr2:hx6:lengthi2e'), both)
    last = make(PAIR, order('hybrid'), {(b'b',): b'x'})
    expect_equal('hybrid of a folder', FOLDER_HYBRID.replace(b'1:bd0:d6:', b'1:bd0:d4:attr1:x6:').replace(
        b'd6:lengthi1e4:path', b'd4:attr1:x6:lengthi1e4:path'), last)
    hidden = make([((b'a',), b'')], order('v1', **single), {(b'a',): b'h'})
    expect_equal('v1 of a hidden file', b'd4:infod4:attr1:h6:lengthi0e4:name1:a12:piece lengthi16384e6:pieces0:ee',
                 hidden)
    expect_equal('lengths', [167, 139, 400, 71], [len(executable), len(both), len(last), len(hidden)])
    paths = {(b'a',), (b'b', b'c d')}
    rows = [(b'', {}), (b'x a\n', {(b'a',): b'x'}), (b'hx b/c d\nh a\n', {(b'b', b'c d'): b'hx', (b'a',): b'h'}),
            (b'x a', None), (b'\n', None), (b' a\n', None), (b'xh a\n', None), (b'x  a\n', None), (b'X a\n', None),
            (b'x a\nh a\n', None), (b'x b\n', None), (b'x /a\n', None), (b'x a/\n', None), (b'x\n', None)]
    for text, letters in rows:
        expect_equal(repr(text), letters, reference.letters_in(text, paths))


def test_reference_hashes_trees(_program, _folder):
    blocks = b''.join(bytes([i]) * BLOCK for i in range(5))
    l = reference.leaves(blocks)

    def pair(one, other):
        return hashlib.sha256(one + other).digest()
    expect_equal('zero subtrees', ['f5a5fd42d16a20302798ef6ed309979b43003d2320d9f0e8ea9831a92759fb4b',
                                   'db56114e00fdd4c1f85c892bf35ac9a89289aaecb1ebd0a96cde606a748b5d71'],
                 [ZERO[1].hex(), ZERO[2].hex()])
    expect_equal('three blocks', pair(pair(l[0], l[1]), pair(l[2], ZERO[0])), reference.root_of(l[:3]))
    layer = [pair(l[0], l[1]), pair(l[2], l[3]), pair(l[4], ZERO[0])]
    expect_equal('the layer of five blocks', layer, reference.layer_of(blocks, 2 * BLOCK))
    expect_equal('the root of five blocks', pair(pair(layer[0], layer[1]), pair(layer[2], ZERO[1])),
                 reference.root_of(l))
    expect_equal('no layer of a piece', [], reference.layer_of(bytes(BLOCK), BLOCK))
    expect_equal('a layer of two', 2, len(reference.layer_of(bytes(BLOCK + 1), BLOCK)))


def test_reference_judges(_program, _folder):
    text = ABC, FOLDER_V1, FOLDER_HYBRID

    def sides(tree, listed):
        return (FOLDER_HYBRID.replace(b'1:bd0:d6', b'1:bd0:d' + tree + b'6')
                .replace(b'd6:lengthi1e4:path', b'd' + listed + b'6:lengthi1e4:path'))
    rows = [(ABC, None), (FOLDER_V1, None), (FOLDER_HYBRID, None), (b'', 'V1 Bencode B1 Truncated at 0'),
            (b'd1:b0:1:a0:e', 'V1 Bencode B7 KeyOrder at 6'), (b'le', 'V2 RootShape'), (b'de', 'V3 InfoShape'),
            (b'd4:infod12:meta versioni3eee', 'V4 MetaVersion'),
            (text[0].replace(b'i16384e', b'i100000e'), 'V5 PieceLength'),
            (text[1].replace(b'i16384e', b'i100000e'), None), (text[1].replace(b'1:f', b'3:a/b'), 'V6 Name'),
            (text[1].replace(b'ee4:name', b'ee6:lengthi3e4:name'), 'V7 LengthAndFiles'),
            (text[1].replace(b'l1:ae', b'l0:e'), 'V8 FileShape'),
            (text[1].replace(b'i2e', b'i-1e', 1), 'V9 FileLength'), (text[1].replace(b'1:b', b'1:a'), 'V10 Duplicate'),
            (text[1].replace(b'1:b', b'1:a1:b'), 'V11 FileAndFolder'),
            (text[0].replace(text[0][20:89], b'1:ade'), 'V12 NoFiles'),
            (text[1].replace(b'i2e', b'i1125899906842625e', 1), 'V13 TooLarge'),
            (text[1].replace(b'd6:length', b'd4:attr1:l6:length', 1), 'V14 Symlink'),
            (text[1].replace(b'20:', b'40:' + bytes(20)), 'V15 PiecesLength'),
            (text[0].replace(b'ee12:meta', b'1:bd0:d6:lengthi0eeeee12:meta'), 'V16 MixedNode'),
            (text[2].replace(b'd6:lengthi1e4:path', b'd6:lengthi2e4:path'), 'V22 FilesDiffer'),
            (text[2].replace(PADDING, b'').replace(b'40:' + P, b'20:' + P[:20]), 'V23 Alignment'),
            (text[2].replace(b'i16382e', b'i32766e').replace(b'40:', b'60:' + bytes(20)), 'V23 Alignment'),
            (text[2].replace(b'4:pathl4:.pad5:16382e', b''), None),
            (sides(b'4:attr1:x', b'4:attr1:h'), 'V25 AttrDiffer'), (sides(b'4:attr1:x', b'4:attr0:'), 'V25 AttrDiffer'),
            (sides(b'4:attr2:hx', b'4:attr2:xh'), None), (sides(b'', b'4:attr1:x'), None),
            (sides(b'4:attr1:x', b''), None)]
    for row, line in rows:
        expect_equal(repr(row), line, code_of(row))


def test_reference_rechecks(_program, _folder):
    hybrid, v1 = judge(FOLDER_HYBRID), judge(FOLDER_V1)
    rows = [(hybrid, [b'ab', b'c'], b'pieces 2 of 2\nbits c0\n'), (hybrid, [b'ab', None], b'pieces 1 of 2\nbits 80\n'),
            (hybrid, [b'a', b'c'], b'pieces 1 of 2\nbits 40\n'), (hybrid, [b'ab', b'cx'], b'pieces 2 of 2\nbits c0\n'),
            (v1, [b'ab', None], b'pieces 0 of 1\nbits 00\n'), (v1, [b'ab', b'cx'], b'pieces 1 of 1\nbits 80\n')]
    for torrent, contents, lines in rows:
        expect_equal(contents, lines, reference.recheck_lines(reference.marks_of(torrent, contents)))


def test_reference_proves(_program, _folder):
    blocks = b''.join(bytes([i]) * BLOCK for i in range(3))
    l = reference.leaves(blocks)
    torrent = judge(make([((b'x',), blocks)], order('v2', True, b'x')))
    proof = reference.prove(torrent, 0, 2)
    wanted = f'index 2\nhash {l[2].hex()}\nsibling {bytes(32).hex()}\nsibling {reference.root_of(l[:2]).hex()}\n'
    root = reference.root_of(l).hex()
    expect_equal('the third of three', wanted.encode(), proof)
    expect_equal('it holds', 'yes', reference.verify(root, '49152', '16384', proof))
    other = proof.replace(bytes(32).hex().encode(), l[0].hex().encode())
    expect_equal('a sibling past the end', 'no', reference.verify(root, '49152', '16384', other))
    expect_equal('no length', 'bad length', reference.verify(root, '0', '16384', proof))
    expect_equal('a zero in front', 'bad piece length', reference.verify(root, '3', '016384', proof))
