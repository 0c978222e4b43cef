"""Names, lists of files in the order of their paths, their letters, file trees, and the list of version 1 with its
padding (BEP 3, BEP 47, BEP 52), each row written out by hand."""
from contents import BLOCK, FILLED_AB, OF_AB, OF_C, SUM_OF_C, content, torrent_of
from reference import decode, encode, sha1
from support import done, expect, expect_equal, refused, run

# What is refused as a name of `--files-from`, where it is a path of one name, or as one of `--name`.
NAMES_OF_LISTS = [(b'', 'N1 Empty'), (b'.', 'N2 Dot'), (b'..', 'N3 DotDot'), (b'\xff', 'N6 NotUtf8'),
                  (b'a\xc0\x80', 'N6 NotUtf8'), (b'\xed\xa0\x80', 'N6 NotUtf8')]
NAMES_OF_TORRENTS = [(b'', 'N1 Empty'), (b'.', 'N2 Dot'), (b'..', 'N3 DotDot'), (b'a/b', 'N4 Slash'),
                     (b'/', 'N4 Slash')]
# What is a name, of the torrent and of its file.
NAMES = [b'a', b'...', b'.a', b'\xc3\xa9', b'n', b'nn', b'n' * 255, b'n' * 4096]


def test_names(program, folder):
    for name, line in NAMES_OF_LISTS:
        expect(program, ['make', '--name', 'f', '--files-from', '-', str(folder)], refused(line), name + b'\0')
    for name, line in NAMES_OF_TORRENTS:
        expect(program, ['make', '--name', name], refused(line))
    for name in NAMES:
        tree = {name: {b'': {b'length': 0}}}
        info = {b'file tree': tree, b'meta version': 2, b'name': name, b'piece length': BLOCK}
        expect(program, ['make', b'--name=' + name, '--piece-length', str(BLOCK)],
               done(encode({b'info': info, b'piece layers': {}})))


def lay_out(place, files):
    """A folder of these files: each has a path, with a slash between two names, and a content."""
    for path, data in files:
        file = place / path
        file.parent.mkdir(parents=True, exist_ok=True)
        file.write_bytes(data)


def lines_of(told):
    """What is told of each file of a torrent of version 1: its path and its length, with an equals sign of padding; or
    the line of a fault."""
    text = b''
    if told.status:
        return told.err.decode()
    for entry in decode(told.out)[b'info'][b'files']:
        sign = b'=' if entry.get(b'attr') == b'p' else b':'
        text += b'%b%b%d ' % (b'/'.join(entry[b'path']), sign, entry[b'length'])
    return text.decode()


# Paths in the order of a list, the length of each, and the list of version 1.
ORDERS = [(['a-b', 'a/c', 'b'], [1, 2, 0], 'a/c:2 a-b:1 b:0 '), (['b', 'a/c', 'a-b'], [0, 2, 1], 'a/c:2 a-b:1 b:0 '),
          (['b', 'a-b', 'a/c'], [7, 0, 5], 'a/c:5 a-b:0 b:7 '), (['b', 'a/z'], [1, 1], 'a/z:1 b:1 '),
          (['a', 'A'], [1, 1], 'A:1 a:1 ')]
# Paths of a list, and why there is no torrent of them.
NO_LISTS = [
    ([], 'L4 NoFiles'), (['a', 'b', 'a'], 'L1 Duplicate'), (['a/b', 'a', 'a-b'], 'L2 FileAndFolder'),
    (['a', 'a/b', 'c', 'c'], 'L1 Duplicate'), (['a/b', 'a', 'c', 'c'], 'L1 Duplicate'),
    (['a/b/c', 'a'], 'L2 FileAndFolder')]
LONG = (1 << 50) + 1
# Files of a foreign torrent, and why it is none.
NO_TORRENTS = [
    ([], 'V12 NoFiles'), ([('a', 1), ('b', 1), ('a', 2)], 'V10 Duplicate'),
    ([('a/b', 1), ('a', 1), ('a-b', 1)], 'V11 FileAndFolder'), ([('a', LONG)], 'V13 TooLarge'),
    ([('a', LONG), ('a/b', 1), ('c', 1), ('c', 1)], 'V10 Duplicate'),
    ([('a/b/c', LONG), ('a', 1)], 'V11 FileAndFolder')]


def ended(paths):
    return b''.join(path.encode() + b'\0' for path in paths)


def test_orders_of_lists(program, folder):
    """The torrent has the files in the order of their paths, each with its own bytes, whatever that of the list."""
    for number, (paths, lengths, wanted) in enumerate(ORDERS):
        place = folder / str(number)
        files = [(path, bytes([65 + at]) * length) for at, (path, length) in enumerate(zip(paths, lengths))]
        lay_out(place, files)
        words = ['make', '--name', 'f', '--kind', 'v1', '--piece-length', str(BLOCK), '--files-from', '-', str(place)]
        told = run(program, words, ended(paths))
        expect_equal(f'{paths}: the files', wanted, lines_of(told))
        (folder / 'torrent').write_bytes(told.out)
        found = run(program, ['recheck', '--brief', str(folder / 'torrent'), str(place)])
        expect_equal(f'{paths}: recheck', (0, b'pieces 1 of 1\n'), (found.status, found.out))
        joined = b''.join(data for _, data in sorted(files, key=lambda file: file[0].split('/')))
        sums = decode(told.out)[b'info'][b'pieces']
        expect_equal(f'{paths}: the bytes', sha1(joined), sums)


def test_no_lists(program, folder):
    for paths, line in NO_LISTS:
        expect(program, ['make', '--name', 'f', '--files-from', '-', str(folder)], refused(line), ended(paths))
    torrent = folder / 'torrent'
    for files, line in NO_TORRENTS:
        entries = [{b'length': length, b'path': path.encode().split(b'/')} for path, length in files]
        info = {b'files': entries, b'name': b'f', b'piece length': BLOCK, b'pieces': b''}
        torrent.write_bytes(encode({b'info': info}))
        expect(program, ['check', str(torrent)], refused(line))


# The kind and options, the paths and lengths of files, and the list of version 1 in pieces of 16,384 bytes; or why
# there is none.
JOINED, ALIGNED, TAILED = ['v1'], ['hybrid'], ['hybrid', '--tail']
LAYOUTS = [
    (JOINED, [('a', 2), ('b', 1)], 'a:2 b:1 '), (ALIGNED, [('a', 2), ('b', 1)], 'a:2 .pad/16382=16382 b:1 '),
    (ALIGNED, [('a', 2), ('aa', 0), ('b', 1)], 'a:2 .pad/16382=16382 aa:0 b:1 '),
    (ALIGNED, [('a', 2), ('aa', 0)], 'a:2 aa:0 '), (ALIGNED, [('a', 0), ('b', 1)], 'a:0 b:1 '),
    (ALIGNED, [('a', 32768), ('b', 1)], 'a:32768 b:1 '),
    (ALIGNED, [('a', 32769), ('b/c', 16383), ('d', 5)], 'a:32769 .pad/16383=16383 b/c:16383 .pad/1=1 d:5 '),
    (ALIGNED, [('a', 0), ('b', 0)], 'a:0 b:0 '), (JOINED, [('.pad/1', 2), ('b', 1)], '.pad/1:2 b:1 '),
    (TAILED, [('a', 2), ('b', 1)], 'a:2 .pad/16382=16382 b:1 .pad/16383=16383 '),
    (TAILED, [('a', 2), ('b', 1), ('c', 0)], 'a:2 .pad/16382=16382 b:1 .pad/16383=16383 c:0 '),
    (TAILED, [('a', 2)], 'a:2 .pad/16382=16382 '),
    (TAILED, [('a', 2), ('b', 16384)], 'a:2 .pad/16382=16382 b:16384 '),
    (TAILED, [('a', 0), ('b', 0)], 'a:0 b:0 '), (TAILED, [('.pad/1', 16384)], 'Y1 ReservedPad'),
    # A path of padding is reserved.
    (ALIGNED, [('.pad/1', 1), ('b', 1)], 'Y1 ReservedPad'), (ALIGNED, [('.pad/1', 16384)], 'Y1 ReservedPad'),
    (ALIGNED, [('a', 0), ('.pad', 0)], 'Y1 ReservedPad'), (ALIGNED, [('a/.pad', 1)], 'a/.pad:1 '),
    (ALIGNED, [('.pads', 1)], '.pads:1 '), (ALIGNED, [('.pa', 1)], '.pa:1 ')]


def test_layouts(program, folder):
    for number, (options, files, wanted) in enumerate(LAYOUTS):
        place = folder / str(number)
        lay_out(place, [(path, bytes(length)) for path, length in files])
        words = ['make', '--name', 'f', '--piece-length', str(BLOCK), '--kind', *options, str(place)]
        if wanted.startswith('Y1'):
            expect(program, words, refused(wanted))
        else:
            told = run(program, words)
            expect_equal(f'{options}, {files}', wanted, lines_of(told))


def test_letters(program, folder):
    """They go with their files, in the tree and in the list; padding has none of them."""
    empty, two, attrs = folder / 'empty', folder / 'two', folder / 'attrs'
    lay_out(empty, [('b', b''), ('a-b', b''), ('a/c', b'')])
    attrs.write_bytes(b'x b\nhx a/c\n')
    tree = b'd1:ad1:cd0:d4:attr2:hx6:lengthi0eeee3:a-bd0:d6:lengthi0eee1:bd0:d4:attr1:x6:lengthi0eeee'
    words = ['make', '--name', 'f', '--piece-length', str(BLOCK), '--attrs', str(attrs)]
    expect(program, [*words, str(empty)], done(
        b'd4:infod9:file tree' + tree + b'12:meta versioni2e4:name1:f12:piece lengthi16384ee12:piece layersdee'))
    lay_out(two, [('a', b'ab'), ('b', b'c')])
    attrs.write_bytes(b'hx a\nh b\n')
    files = [((b'a',), b'ab'), ((b'b',), b'c')]
    wanted = torrent_of('hybrid', files, [OF_AB, OF_C], [[], []], FILLED_AB + SUM_OF_C,
                        letters={(b'a',): b'hx', (b'b',): b'h'})
    expect_equal('the list', True, b'5:filesld4:attr2:hx6:lengthi2e4:pathl1:aeed4:attr1:p6:lengthi16382e4:pathl4:.pad5:'
                 b'16382eed4:attr1:h6:lengthi1e4:pathl1:beee' in wanted)
    expect(program, [*words, '--kind', 'hybrid', str(two)], done(wanted))


ANY_ROOT = b'\7' * 32


def joined(program, folder, files):
    """The torrent that `join` writes of these files if each with bytes is told to have that root."""
    place, plan, part = folder / 'files', folder / 'plan', folder / 'part'
    lay_out(place, files)
    expect(program, ['plan', '--name', 'f', '--piece-length', str(BLOCK), '--out', str(plan), str(place)], done())
    words = ['make', '--plan', str(plan), '--part', '0/1', '--out', str(part), str(place)]
    expect(program, words, done())
    lot = decode(part.read_bytes())
    part.write_bytes(encode({**lot, b'hashes': ANY_ROOT * (len(lot[b'hashes']) // 32)}))
    told = run(program, ['join', str(plan), str(part)])
    expect_equal('join', (0, b''), (told.status, told.err))
    return told.out


def expect_files(program, torrent, files):
    """That a torrent of version 2 has just these files, each with that root where it has bytes."""
    told = run(program, ['check', '--roots', str(torrent)])
    lines = [b'files %d' % len(files)] + [b'%d %b' % (len(data), path.encode()) for path, data in files]
    roots = [b'root %b %d' % (ANY_ROOT.hex().encode(), at) for at, (_, data) in enumerate(files) if data]
    came = told.out.splitlines()
    expect_equal('files and roots', (0, lines + roots), (told.status, came[4:-1 - len(roots)] + came[-len(roots):]))


def test_a_tree_has_its_files_again(program, folder):
    torrent = folder / 'torrent'
    made = joined(program, folder, [('a-b', b''), ('a/c', b'abc')])
    tree = b'd1:ad1:cd0:d6:lengthi3e11:pieces root32:' + ANY_ROOT + b'eee3:a-bd0:d6:lengthi0eeee'
    expect_equal('two files', b'd4:infod9:file tree' + tree + b'12:meta versioni2e4:name1:f12:piece lengthi16384ee12:'
                 b'piece layersdee', made)
    torrent.write_bytes(made)
    expect_files(program, torrent, [('a/c', b'abc'), ('a-b', b'')])
    # So many files in up to seven folders, each of a length of its own.
    for count in [1, 10, 1000]:
        files = [(f'{number % 7}/{number:04}', content(number)) for number in range(count, 0, -1)]
        (folder / str(count)).mkdir()
        torrent.write_bytes(joined(program, folder / str(count), files))
        expect_files(program, torrent, sorted(files))
