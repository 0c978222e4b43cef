"""Foreign torrents: each condition of the 24, in each way it can come about, and what is read leniently.

A row edits one place of a lawful torrent: the torrent, the place (keys and numbers from the root), what stands there
then, and the line that is wanted; None is that it is a torrent, of which `check` tells what the reference does.
"""
import copy
from itertools import product

import reference
from reference import BLOCK, Order, Refused, decode, encode, judge, make
from refuser import Refuser
from support import Failure, Told, done, expect, expect_told, refused

GONE = object()
BIG = 1 << 50


def base(kind, files, single=False):
    name = b'a' if single else b'f'
    return decode(make(files, Order(kind, single, name, BLOCK, b'http://t/', False, 'one', 1, 16)))


FILES = [((b'a',), b'ab'), ((b'b', b'c'), b'x' * 40000), ((b'b', b'd'), b''), ((b'e',), b'c')]
BASES = {
    'v1': base('v1', FILES), 'v2': base('v2', FILES), 'hybrid': base('hybrid', FILES),
    'v1 file': base('v1', [((b'a',), b'abc')], True), 'v2 file': base('v2', [((b'a',), b'abc')], True),
    'hybrid file': base('hybrid', [((b'a',), b'x' * 40000)], True),
    'hybrid empty': base('hybrid', [((b'a',), b''), ((b'b',), b'')]),
}
LONG_ROOT = reference.root_of(reference.leaves(b'x' * 40000))
A_ROOT = reference.root_of(reference.leaves(b'ab'))
PAD = {b'attr': b'p', b'length': 5, b'path': [b'.pad', b'5']}
BAD_NAMES = [b'', b'.', b'..', b'a/b', b'/', b'a\0b', b'\xff', b'\xc0\xaf', b'\xed\xa0\x80', b'\xf4\x90\x80\x80',
             b'a\x80', b'\xe2\x82']
INFO = (b'info',)
FIRST = (b'info', b'files', 0)
TREE = (b'info', b'file tree')
A_FILE = TREE + (b'a', b'')
C_FILE = TREE + (b'b', b'c', b'')
LAYERS = (b'piece layers',)
LAYER = LAYERS + (LONG_ROOT,)


def edited(root, place, value):
    """The torrent with another value at a place, or without it."""
    root = copy.deepcopy(root)
    at = root
    for key in place[:-1]:
        at = at[key]
    if value is GONE:
        del at[place[-1]]
    else:
        at[place[-1]] = value
    return root


def with_attr(root, place, attr):
    """The torrent with this `attr` of what stands at a place, or with none where it is GONE."""
    return root if attr is GONE else edited(root, place + (b'attr',), attr)


def rows_of(line, bases, place, values):
    return [(name, place, value, line) for name in bases for value in values]


ALL = ('v1', 'v2', 'hybrid', 'v1 file', 'v2 file', 'hybrid file')
LISTS = ('v1', 'hybrid')
TREES = ('v2', 'hybrid')
SINGLES = ('v1 file', 'hybrid file')


def head_rows():
    rows = rows_of('V3 InfoShape', ALL, INFO, [GONE, 1, [], b'd'])
    rows += rows_of('V4 MetaVersion', ALL, INFO + (b'meta version',), [1, 3, -2, b'2', [], {}])
    length = INFO + (b'piece length',)
    rows += rows_of('V5 PieceLength', ALL, length, [GONE, b'16384', [], 0, -1, (1 << 30) + 1, 1 << 31, 1 << 62])
    rows += rows_of('V5 PieceLength', TREES, length, [1, 8192, 16383, 16385, 49152, 100000])
    name = INFO + (b'name',)
    rows += rows_of('V6 Name', ALL, name, [GONE, 1, [b'a'], {}] + BAD_NAMES)
    rows += rows_of('V7 LengthAndFiles', LISTS, INFO + (b'length',), [3, b'', -1])
    rows += rows_of('V7 LengthAndFiles', LISTS, INFO + (b'files',), [GONE])
    rows += rows_of('V7 LengthAndFiles', SINGLES, INFO + (b'files',), [[], 1])
    rows += rows_of('V7 LengthAndFiles', SINGLES, INFO + (b'length',), [GONE])
    return rows


def list_rows():
    shape = 'V8 FileShape'
    rows = rows_of(shape, SINGLES, INFO + (b'length',), [b'3', [], {}])
    rows += rows_of(shape, SINGLES, INFO + (b'attr',), [1, [], {}])
    rows += rows_of(shape, LISTS, INFO + (b'files',), [1, b'', {}])
    rows += rows_of(shape, LISTS, FIRST, [1, [], b''])
    rows += rows_of(shape, LISTS, FIRST + (b'length',), [GONE, b'2', []])
    rows += rows_of(shape, LISTS, FIRST + (b'attr',), [1, [], {}])
    rows += rows_of(shape, LISTS, FIRST + (b'path',), [GONE, 1, b'a', [], {}, [1], [[b'a']], [b'a', 1]])
    rows += rows_of(shape, LISTS, FIRST + (b'path',), [[name] for name in BAD_NAMES] + [[b'a', b'', b'b']])
    rows += rows_of(shape, LISTS, FIRST, [{b'attr': 1, b'length': 2, b'path': [b'a']}, {b'attr': b'p', b'path': []},
                                          {b'attr': b'p', b'length': b''}, {b'attr': b'x', b'length': 2}])
    negative = 'V9 FileLength'
    rows += rows_of(negative, LISTS, FIRST + (b'length',), [-1, -(1 << 63)])
    rows += rows_of(negative, SINGLES, INFO + (b'length',), [-1])
    rows += rows_of(negative, LISTS, FIRST, [{b'attr': b'p', b'length': -1}])
    files = [{b'length': 2, b'path': list(path)} for path in [(b'a',), (b'b', b'c'), (b'b', b'd'), (b'e',)]]

    def with_path(place, *names):
        return files[:place] + [{b'length': 2, b'path': list(names)}] + files[place:]
    listed = INFO + (b'files',)
    rows += rows_of('V10 Duplicate', LISTS, listed, [with_path(0, b'e'), with_path(4, b'b', b'c'), [files[0]] * 2])
    rows += rows_of('V11 FileAndFolder', LISTS, listed, [
        with_path(0, b'b'), with_path(4, b'b'), with_path(0, b'a', b'x'), with_path(4, b'a', b'x'),
        with_path(4, b'b', b'c', b'd', b'e')])
    rows += rows_of('V12 NoFiles', LISTS, listed, [[], [PAD], [PAD, PAD]])
    return rows


def size_rows():
    large, entry = 'V13 TooLarge', {b'length': BIG, b'path': [b'z']}
    many = [{b'length': BIG, b'path': [b'%04d' % i]} for i in range(4096)]
    tree = {b'%04d' % i: {b'': {b'length': BIG}} for i in range(4096)}
    padding = [{b'attr': b'p', b'length': BIG}] * 4096
    listed = INFO + (b'files',)
    rows = rows_of(large, LISTS, FIRST + (b'length',), [BIG + 1, (1 << 63) - 1])
    rows += rows_of(large, LISTS, FIRST, [{b'attr': b'p', b'length': BIG + 1}])
    rows += rows_of(large, SINGLES, INFO + (b'length',), [BIG + 1])
    rows += rows_of(large, TREES, C_FILE + (b'length',), [BIG + 1, (1 << 63) - 1])
    rows += rows_of(large, LISTS, listed, [many + [{b'length': 1, b'path': [b'z']}], many + [entry],
                                           padding + [entry], padding + [{b'length': 1, b'path': [b'z']}]])
    rows += rows_of(large, TREES, TREE, [{**tree, b'z': {b'': {b'length': 1}}}])
    # Exactly as much as there may be: then a later condition holds.
    rows += rows_of('V15 PiecesLength', LISTS, FIRST + (b'length',), [BIG])
    rows += rows_of('V15 PiecesLength', LISTS, listed, [many, padding + [{b'length': 0, b'path': [b'z']}]])
    rows += rows_of('V17 RootHash', ('v2',), TREE, [tree])
    return rows


def tree_rows():
    shape = 'V8 FileShape'
    rows = rows_of(shape, TREES, TREE, [GONE, 1, b'', []])
    rows += rows_of(shape, TREES, TREE + (b'a',), [1, b'', []])
    rows += rows_of(shape, TREES, TREE + (b'b', b'c'), [1, b'', []])
    for name in BAD_NAMES[1:]:
        rows += rows_of(shape, TREES, TREE + (name,), [{b'': {b'length': 0}}, {}])
        rows += rows_of(shape, TREES, TREE + (b'b', name), [{b'': {b'length': 0}}])
    rows += rows_of(shape, TREES, A_FILE, [1, b'', [], {}, {b'length': b'2'}, {b'pieces root': A_ROOT}])
    rows += rows_of(shape, TREES, A_FILE + (b'attr',), [1, [], {}])
    rows += rows_of('V9 FileLength', TREES, A_FILE + (b'length',), [-1, -(1 << 63)])
    rows += rows_of('V12 NoFiles', TREES, TREE, [{}, {b'a': {}}, {b'a': {b'b': {}}, b'c': {}}])
    empty = {b'length': 0}
    rows += rows_of('V16 MixedNode', TREES, TREE + (b'',), [empty])
    rows += rows_of('V16 MixedNode', TREES, TREE + (b'b', b''), [empty])
    rows += rows_of('V16 MixedNode', TREES, TREE + (b'a', b'z'), [{}, {b'': empty}])
    rows += rows_of('V16 MixedNode', ('v2',), TREE, [{b'': empty}])
    rows += rows_of('V17 RootHash', TREES, A_FILE + (b'pieces root',),
                    [GONE, 1, b'', [], A_ROOT[:31], A_ROOT + b'x', A_ROOT * 2])
    rows += rows_of('V18 LayersAbsent', TREES, LAYERS, [GONE, 1, b'', []])
    rows += rows_of('V18 LayersAbsent', ('v2 file',), LAYERS, [1, b'', []])
    rows += rows_of('V19 LayerAbsent', TREES, LAYER, [GONE, 1, [], {}])
    rows += rows_of('V19 LayerAbsent', TREES, C_FILE + (b'pieces root',), [A_ROOT])
    layer = BASES['v2'][b'piece layers'][LONG_ROOT]
    rows += rows_of('V20 LayerLength', TREES, LAYER, [b'', layer[:64], layer + bytes(32), layer[:95], layer + b'x'])
    turned = bytes([layer[0] ^ 1]) + layer[1:]
    rows += rows_of('V21 LayerRoot', TREES, LAYER, [turned, layer[:95] + bytes([layer[95] ^ 128]),
                                                    layer[32:64] + layer[64:] + layer[:32], bytes(96)])
    return rows


def link_rows():
    rows = rows_of('V14 Symlink', LISTS, FIRST + (b'attr',), [b'l', b'xl', b'lh'])
    rows += rows_of('V14 Symlink', ('hybrid',), (b'info', b'files', 1, b'attr'), [b'pl', b'lp'])
    rows += rows_of('V14 Symlink', SINGLES, INFO + (b'attr',), [b'l', b'hxl'])
    rows += rows_of('V14 Symlink', TREES, A_FILE + (b'attr',), [b'l', b'pl'])
    pieces = INFO + (b'pieces',)
    rows += rows_of('V15 PiecesLength', ('v1', 'v1 file'), pieces, [GONE])
    rows += rows_of('V15 PiecesLength', LISTS + SINGLES, pieces, [1, [], {}, b'', bytes(19), bytes(59), bytes(200)])
    return rows


def side_rows():
    """Hybrids whose two sides are no pair."""
    entries = BASES['hybrid'][b'info'][b'files']
    files = INFO + (b'files',)

    def listed(*parts):
        return [part if isinstance(part, dict) else entries[part] for part in parts]

    def pad(length):
        return {b'attr': b'p', b'length': length}

    def entry(length, *path):
        return {b'length': length, b'path': list(path)}
    # The entries: a, padding, b/c, padding, b/d (empty), e.
    differ, misaligned = 'V22 FilesDiffer', 'V23 Alignment'
    rows = [('hybrid', files, value, differ) for value in [
        listed(entry(2, b'A'), 1, 2, 3, 4, 5), listed(entry(3, b'a'), pad(16381), 2, 3, 4, 5),
        listed(0, 1, 2, 3, 5, 4), listed(0, 1, 2, 3, 5), listed(0, 1, 2, 3, 4, 5, entry(0, b'g')),
        listed(0, 1, 2, 3, entry(0, b'b', b'e'), 5), listed(0, 1, entry(40000, b'b', b'C'), 3, 4, 5)]]
    rows += [('hybrid', files, value, misaligned) for value in [
        listed(pad(16382), 0, 2, 3, 4, 5), listed(0, 2, 1, 3, 4, 5), listed(0, pad(16381), 2, pad(9153), 4, 5),
        listed(0, 1, 2, 3, 4, 5, pad(16382)), listed(0, 1, 2, 3, 4, 5, pad(1)),
        listed(0, pad(16383), 2, pad(9151), 4, 5)]]
    rows += [('hybrid', files, value, None) for value in [
        listed(0, 1, 2, 4, 3, 5), listed(0, pad(0), 1, 2, 3, pad(0), 4, 5), listed(0, 1, 2, 3, 4, 5, pad(16383)),
        listed(0, pad(16000), pad(382), 2, 3, 4, 5), listed(0, 1, 2, pad(4000), 4, pad(5152), 5),
        listed(0, 1, 2, 3, 4, 5, pad(383), pad(16000)), listed(pad(0), 0, 1, 2, 3, 4, 5, pad(0))]]
    rows += rows_of(differ, ('hybrid file',), TREE, [{b'A': BASES['hybrid file'][b'info'][b'file tree'][b'a']},
                                                     {b'a': {b'a': BASES['hybrid file'][b'info'][b'file tree'][b'a']}}])
    rows += rows_of(differ, ('hybrid file',), INFO + (b'length',), [40001, 39999, 32769])
    return rows


def lenient_rows():
    rows = []
    for place, values in [
            ((b'created by',), [b'x', 1]), ((b'creation date',), [1, -5, b'x']), ((b'announce-list',), [[[b'a']], 3]),
            ((b'announce',), [1, [], GONE]), ((b'',), [{b'': b''}]), ((b'nodes',), [[[b'h', 1]]]),
            (INFO + (b'name.utf-8',), [b'a/b', 1]), (INFO + (b'private',), [0, 1, 2, b'1', []]),
            (INFO + (b'source',), [b'x']), (INFO + (b'\xff\0',), [{}])]:
        rows += rows_of(None, ALL, place, values)
    for place, values in [
            (FIRST + (b'path.utf-8',), [1]), (FIRST + (b'md5sum',), [b'x', 2]), (FIRST + (b'mtime',), [-1]),
            (FIRST + (b'attr',), [b'', b'x', b'hx', b'\xff?']), (INFO + (b'attr',), [b'l', 1])]:
        rows += rows_of(None, LISTS, place, values)
    rows += rows_of(None, SINGLES, INFO + (b'attr',), [b'', b'p', b'xhp'])
    for shape in [GONE, 1, b'', [], [1], [b'..'], [b'a'], {}]:
        rows += rows_of(None, ('hybrid',), (b'info', b'files', 1, b'path'), [shape])
    rows += rows_of(None, ('hybrid',), (b'info', b'files', 1, b'attr'), [b'xp', b'ph'])
    rows += rows_of(None, TREES, A_FILE + (b'attr',), [b'', b'p', b'hx', b'\xff'])
    rows += rows_of(None, TREES, A_FILE + (b'other',), [1, {b'': 1}, {b'/': {}}])
    rows += rows_of(None, TREES, TREE + (b'b', b'd', b'', b'pieces root'), [b'', 1, bytes(32), b'x' * 99])
    rows += rows_of(None, TREES, TREE + (b'z',), [{}, {b'y': {}}])
    rows += rows_of(None, TREES, LAYERS + (bytes(32),), [b'', 1, []])
    rows += rows_of(None, TREES, LAYERS + (A_ROOT,), [b'x' * 31, {}])
    rows += rows_of(None, ('v2 file',), LAYERS, [GONE, {}])
    rows += rows_of(None, ('v2', 'v2 file'), INFO + (b'files',), [1, [], b''])
    rows += rows_of(None, ('v2', 'v2 file'), INFO + (b'length',), [-1, b'', []])
    rows += rows_of(None, ('v2', 'v2 file'), INFO + (b'attr',), [b'l', 1])
    rows += rows_of(None, ('v1', 'v1 file'), TREE, [1, {}, b''])
    rows += rows_of(None, ('v1', 'v1 file'), LAYERS, [1, {}, b''])
    files = BASES['v1'][b'info'][b'files']
    pads = [dict(PAD, length=0), {b'attr': b'p', b'length': 100, b'path': 7}]
    pads = [{b'attr': b'p', b'length': 0}, {b'attr': b'p', b'length': 100, b'path': 7}]
    rows += rows_of(None, ('v1',), INFO + (b'files',), [pads + files, files + pads, files[:1] + pads + files[1:]])
    return rows


ROWS = head_rows() + list_rows() + size_rows() + tree_rows() + link_rows() + side_rows() + lenient_rows()


def wanted_lines(text, command='check'):
    """What `check` or `magnet` tells of these bytes by the reference."""
    try:
        torrent = judge(text)
    except Refused as refusal:
        return refused(refusal.line)
    return done(reference.check_lines(torrent) if command == 'check' else reference.magnet(torrent))


def expect_torrent(program, folder, text, line, note):
    """That the reference and the program tell this line of the bytes; None is that they are a torrent."""
    wanted = wanted_lines(text)
    told = wanted.err.decode().removeprefix('tor: ').removesuffix('\n') or None
    if told != line:
        raise Failure(f'the reference: {note}\nwanted  {line}\ncame    {told}')
    place = folder / 'torrent'
    place.write_bytes(text)
    expect(program, ['check', str(place)], wanted, note=note + '\n')


def expect_rows(program, folder, rows):
    for name, place, value, line in rows:
        shown = 'gone' if value is GONE else repr(value)[:200]
        expect_torrent(program, folder, encode(edited(BASES[name], place, value)), line,
                       f'{name}, at {place}: {shown}')


def test_bases(program, folder):
    for name, root in BASES.items():
        expect_torrent(program, folder, encode(root), None, name)


def test_roots(program, folder):
    for text in [b'i1e', b'le', b'0:', b'3:abc', b'li1ee', b'ld4:infodeee']:
        expect_torrent(program, folder, text, 'V2 RootShape', repr(text))


def test_heads(program, folder):
    expect_rows(program, folder, head_rows())


def test_lists(program, folder):
    expect_rows(program, folder, list_rows())


def test_sizes(program, folder):
    expect_rows(program, folder, size_rows())


def test_trees(program, folder):
    expect_rows(program, folder, tree_rows())


def test_links_and_pieces(program, folder):
    expect_rows(program, folder, link_rows())


def test_sides(program, folder):
    expect_rows(program, folder, side_rows())


def test_letters(program, folder):
    """The letters of a file of a hybrid are to be the same where both sides have its `attr`, whatever else it has."""
    attrs = [GONE, b'', b'x', b'h', b'hx', b'xh', b'xxh', b'z', b'zh', b'X']
    cases = [('hybrid', A_FILE, FIRST), ('hybrid', TREE + (b'b', b'd', b''), INFO + (b'files', 4)),
             ('hybrid', TREE + (b'e', b''), INFO + (b'files', 5)), ('hybrid file', A_FILE, INFO)]
    for name, in_tree, in_list in cases:
        for tree, listed in product(attrs, attrs):
            root = with_attr(with_attr(BASES[name], in_tree, tree), in_list, listed)
            both = tree is not GONE and listed is not GONE
            differ = both and any((letter in tree) != (letter in listed) for letter in b'xh')
            expect_torrent(program, folder, encode(root), 'V25 AttrDiffer' if differ else None,
                           f'{name}, {in_list}: {tree!r} in the tree, {listed!r} in the list')
    # A `p` in the tree, or beside a single length, means nothing; every other condition is told first.
    for tree, listed, line in [(b'p', b'x', 'V25 AttrDiffer'), (b'px', b'x', None), (b'l', b'x', 'V14 Symlink')]:
        root = with_attr(with_attr(BASES['hybrid'], A_FILE, tree), FIRST, listed)
        expect_torrent(program, folder, encode(root), line, f'{tree!r} in the tree, {listed!r} in the list')
    root = with_attr(with_attr(BASES['hybrid file'], A_FILE, b'x'), INFO, b'px')
    expect_torrent(program, folder, encode(root), None, 'p beside a single length')
    root = with_attr(with_attr(BASES['hybrid'], A_FILE, b'x'), FIRST, b'h')
    files = root[b'info'][b'files']
    for entries, line in [(files[:2] + files[3:], 'V22 FilesDiffer'), (files[:1] + files[2:], 'V23 Alignment')]:
        changed = edited(root, INFO + (b'files',), entries)
        changed[b'info'][b'pieces'] = bytes(20 * -(-sum(entry[b'length'] for entry in entries) // BLOCK))
        expect_torrent(program, folder, encode(changed), line, f'{line} before the letters')
    for place, value, line in [(LAYERS, GONE, 'V18 LayersAbsent'), (LAYER, GONE, 'V19 LayerAbsent'),
                               (LAYER, b'', 'V20 LayerLength'), (LAYER, bytes(96), 'V21 LayerRoot')]:
        expect_torrent(program, folder, encode(edited(root, place, value)), line, f'{line} before the letters')


def test_lenient(program, folder):
    expect_rows(program, folder, lenient_rows())


def test_padding_alone(program, folder):
    """A hybrid whose files are all empty has padding of no byte, wherever it stands."""
    root = BASES['hybrid empty']
    files = root[b'info'][b'files']
    zero, one = {b'attr': b'p', b'length': 0}, {b'attr': b'p', b'length': 1}
    for place in range(3):
        with_zero = edited(root, INFO + (b'files',), files[:place] + [zero] + files[place:])
        expect_torrent(program, folder, encode(with_zero), None, f'no byte at {place}')
        with_one = edited(root, INFO + (b'files',), files[:place] + [one] + files[place:])
        with_one[b'info'][b'pieces'] = bytes(20)
        expect_torrent(program, folder, encode(with_one), 'V23 Alignment', f'a byte at {place}')


def test_fronts_and_turned_bits(program, folder, step=7):
    """Each front of a hybrid is truncated at its end; where one bit is turned the reference tells the same, and what is
    accepted is the spelling of its tree. Here it is every seventh bit; sides.py turns each."""
    text = make([((b'a',), b'ab'), ((b'b',), b'c')], Order('hybrid', False, b'f', BLOCK, None, False, 'one', 1, 16))
    runs, place = Refuser(program, folder, library=''), folder / 'torrent'
    for count in range(len(text)):
        expect_told_of(runs, place, text[:count], refused(f'V1 Bencode B1 Truncated at {count}'), f'the first {count}')
    for bit in range(0, 8 * len(text), step):
        turned = bytearray(text)
        turned[bit // 8] ^= 1 << bit % 8
        wanted = wanted_lines(bytes(turned))
        expect_told_of(runs, place, turned, wanted, f'bit {bit} turned')
        if wanted.status == 0 and encode(decode(bytes(turned))) != turned:
            raise Failure(f'bit {bit} turned: accepted, and no spelling of a tree')


def expect_told_of(runs, place, text, wanted, note):
    """That `check` tells this of the bytes, in a run that takes little time."""
    place.write_bytes(text)
    words = ['check', str(place)]
    expect_told(words, wanted, Told(*runs.run(words)[:3]), f'{note}\n')


def test_nesting(program, folder):
    """A file below 96 folders is read; one below 97 is nested too deep."""
    for folders, line in [(96, None), (97, 'V1 Bencode B8 TooDeep at 410')]:
        tree = {b'': {b'length': 0}}
        for _ in range(folders):
            tree = {b'a': tree}
        root = {b'info': {b'file tree': tree, b'meta version': 2, b'name': b'a', b'piece length': BLOCK}}
        expect_torrent(program, folder, encode(root), line, f'{folders} folders')


def test_every_reading_fault(program, folder):
    """The table of bencode's faults, through the program."""
    rows = [(b'', 'B1 Truncated at 0'), (b'i', 'B1 Truncated at 1'), (b'i12', 'B1 Truncated at 3'),
            (b'x', 'B2 BadByte at 0'), (b'd1:ae', 'B2 BadByte at 4'), (b'l-e', 'B2 BadByte at 1'),
            (b'i-0e', 'B3 BadInteger at 0'), (b'i03e', 'B3 BadInteger at 0'), (b'ie', 'B3 BadInteger at 0'),
            (b'i-e', 'B3 BadInteger at 0'), (b'i1-2e', 'B3 BadInteger at 0'), (b'li1xe', 'B3 BadInteger at 1'),
            (b'i9223372036854775808e', 'B4 IntegerRange at 0'), (b'li-9223372036854775809ee', 'B4 IntegerRange at 1'),
            (b'i' + b'9' * 5000 + b'e', 'B4 IntegerRange at 0'), (b'01:a', 'B5 BadLength at 0'),
            (b'3abc', 'B5 BadLength at 0'), (b'l00:e', 'B5 BadLength at 1'), (b'4:abc', 'B1 Truncated at 5'),
            (b'99999999999999999999:a', 'B1 Truncated at 22'), (b'18446744073709551616:', 'B1 Truncated at 21'),
            (b'18446744073709551617:a', 'B1 Truncated at 22'), (b'1' * 5000, 'B1 Truncated at 5000'),
            (b'4294967297:a', 'B1 Truncated at 12'), (b'di1e1:ae', 'B6 KeyNotBytes at 1'),
            (b'dle', 'B6 KeyNotBytes at 1'), (b'd1:ai1e1:ai2ee', 'B7 KeyOrder at 7'),
            (b'd1:b0:1:a0:e', 'B7 KeyOrder at 6'), (b'd2:ab0:1:a0:e', 'B7 KeyOrder at 7'),
            (b'd1:a0:0:x', 'B7 KeyOrder at 6'), (b'l' * 101, 'B8 TooDeep at 100'),
            (b'd0:' * 100 + b'l', 'B8 TooDeep at 300'), (b'0:x', 'B9 Trailing at 2'), (b'dede', 'B9 Trailing at 2'),
            (b'de\n', 'B9 Trailing at 2')]
    for text, line in rows:
        expect_torrent(program, folder, text, f'V1 Bencode {line}', repr(text[:40]))
        wanted = refused(f'V1 Bencode {line}')
        for words in [['magnet'], ['prove', '0', '0'], ['recheck', str(folder)]]:
            words = [words[0], str(folder / 'torrent'), *words[1:]]
            expect(program, words, Told(1, b'', wanted.err))
