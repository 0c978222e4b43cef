"""What a body that is made for small inputs would refuse, or count wrong. Large files are sparse: zeros, but for a few
bytes, so that their hashes are known without hashing all of them."""
import hashlib
import os
import random
import subprocess

import reference
from foreign import wanted_lines
from reference import BLOCK, Order, encode, judge, make, parents, root_of, sha1, sha256
from support import Skipped, done, expect, expect_equal, refused

ZERO_LEAF = sha256(bytes(BLOCK))
ZERO_PIECE = sha1(bytes(BLOCK))
GIB = 1 << 30


def order(kind, single, piece_length=BLOCK, name=b'f'):
    return Order(kind, single, name, piece_length, None, False, 'one', 1, 16)


def sparse(place, length, marks=()):
    """A file of zeros with bytes at some places."""
    try:
        with open(place, 'wb') as file:
            for at, data in marks:
                file.seek(at)
                file.write(data)
            file.truncate(length)
    except OSError as error:
        raise Skipped(f'no file of {length} bytes: {error}') from None
    return str(place)


def blocks_of(length, marks, zero, hashed):
    """The hash of each block of such a file, only the marked ones of which are hashed."""
    hashes = [zero] * (length // BLOCK) + ([hashed(bytes(length % BLOCK))] if length % BLOCK else [])
    for number in {place // BLOCK for at, data in marks for place in range(at, at + len(data))}:
        block = bytearray(min(BLOCK, length - number * BLOCK))
        for at, data in marks:
            for i, byte in enumerate(data):
                if (at + i) // BLOCK == number:
                    block[at + i - number * BLOCK] = byte
        hashes[number] = hashed(bytes(block))
    return hashes


# Bytes on both sides of each place where 32 bits end, other ones at the places that these would be taken for.
LENGTH = 4 * GIB + 40000
MARKS = [(5, b'low'), (2 * GIB - 2, b'half'), (3 * GIB, b'three'), (4 * GIB - 3, b'beyond'), (4 * GIB + 20000, b'high'),
         (LENGTH - 1, b'z')]


def v2_of(length, hashes, piece_length):
    """The v2 torrent of one such file, and its layer."""
    layer, level = hashes, 0
    while BLOCK << level < piece_length:
        layer, level = parents(layer, level), level + 1
    root = root_of(layer, level)
    info = {b'file tree': {b'f': {b'': {b'length': length, b'pieces root': root}}}, b'meta version': 2, b'name': b'f',
            b'piece length': piece_length}
    return encode({b'info': info, b'piece layers': {root: b''.join(layer)}}), layer, root


def test_v2_over_4_gib(program, folder):
    """Made and rechecked in pieces of 1 MiB: 4,097 of them, the last beyond 32 bits."""
    path = sparse(folder / 'f', LENGTH, MARKS)
    text, _, _ = v2_of(LENGTH, blocks_of(LENGTH, MARKS, ZERO_LEAF, sha256), 1 << 20)
    torrent = folder / 'torrent'
    words = ['make', '--name', 'f', '--piece-length', str(1 << 20), '--how', 'halves', '--workers', '2', '--out',
             str(torrent), path]
    expect(program, words, done())
    expect_equal('the torrent', True, torrent.read_bytes() == text)
    # The byte past 32 bits is turned: its piece alone is wrong.
    sparse(folder / 'f', LENGTH, MARKS[:4] + [(4 * GIB + 20000, b'hiGh'), MARKS[5]])
    lines = b'pieces 4096 of 4097\nbits ' + b'ff' * 512 + b'00\nbad 4096 4097 %d %d f\n' % (LENGTH, LENGTH)
    expect(program, ['recheck', '--files', str(torrent), path], done(lines, 1))


AFTER = b'after it'


def marks_in(length):
    """Those that a file of so many bytes has room for, the last at its end."""
    return [mark for mark in MARKS[:-1] if mark[0] < length - 10] + [(length - 1, b'z')]


def pair_of(kind, length):
    """The torrent of a folder of such a file of so many bytes and a short one after it, in pieces of a block."""
    marks = marks_in(length)
    info = {b'name': b'f', b'piece length': BLOCK}
    root = {b'info': info}
    if kind != 'v1':
        layer = blocks_of(length, marks, ZERO_LEAF, sha256)
        info[b'meta version'] = 2
        info[b'file tree'] = {b'a': {b'': {b'length': length, b'pieces root': root_of(layer)}},
                              b'b': {b'': {b'length': len(AFTER), b'pieces root': sha256(AFTER)}}}
        root[b'piece layers'] = {root_of(layer): b''.join(layer)}
    if kind != 'v2':
        lacking = -length % BLOCK if kind == 'hybrid' else 0
        padding = {b'attr': b'p', b'length': lacking, b'path': [b'.pad', b'%d' % lacking]}
        info[b'files'] = [{b'length': length, b'path': [b'a']}] + [padding] * (lacking > 0) \
            + [{b'length': len(AFTER), b'path': [b'b']}]
        start = length + lacking
        info[b'pieces'] = b''.join(blocks_of(start + len(AFTER), marks + [(start, AFTER)], ZERO_PIECE, sha1))
    return encode(root)


def lay_out_pair(place, length):
    place.mkdir(exist_ok=True)
    sparse(place / 'a', length, marks_in(length))
    (place / 'b').write_bytes(AFTER)


def test_v1_over_4_gib(program, folder):
    """A folder whose first file ends beyond 32 bits, in 262,147 pieces and as many units."""
    place = folder / 'files'
    lay_out_pair(place, LENGTH)
    torrent = folder / 'torrent'
    words = ['make', '--name', 'f', '--kind', 'v1', '--piece-length', str(BLOCK), '--span', '1', '--how', 'halves',
             '--workers', '2', '--out', str(torrent), str(place)]
    expect(program, words, done())
    expect_equal('the torrent', True, torrent.read_bytes() == pair_of('v1', LENGTH))
    expect(program, ['check', str(torrent)], wanted_lines(torrent.read_bytes()))


def test_streams_over_4_gib(program, folder):
    """Such a folder read once: as v1 past 32 bits in units of eight pieces, and of the other kinds in units of 16, and
    of 1,024."""
    place = folder / 'files'
    torrent = folder / 'torrent'
    for kind, span, length in [('v1', 8, LENGTH), ('v2', 16, GIB // 2 + 40000), ('hybrid', 1024, GIB // 2 + 40000)]:
        lay_out_pair(place, length)
        words = ['make', '--name', 'f', '--kind', kind, '--piece-length', str(BLOCK), '--span', str(span),
                 '--how', 'streams', '--workers', '3', '--out', str(torrent), str(place)]
        expect(program, words, done())
        expect_equal(f'the {kind} torrent', True, torrent.read_bytes() == pair_of(kind, length))


def test_recheck_past_262144_pieces(program, folder):
    """Padding of 2^32 bytes, whose piece of zeros is hashed once, and a file behind it."""
    content = random.Random(8).randbytes(5 * BLOCK + 77)
    pieces = [ZERO_PIECE] * (4 * GIB // BLOCK) + [sha1(content[at:at + BLOCK]) for at in range(0, len(content), BLOCK)]
    info = {b'files': [{b'attr': b'p', b'length': 4 * GIB}, {b'length': len(content), b'path': [b'a']}], b'name': b'f',
            b'piece length': BLOCK, b'pieces': b''.join(pieces)}
    torrent = folder / 'torrent'
    torrent.write_bytes(encode({b'info': info}))
    place = folder / 'files'
    place.mkdir()
    for turned in [None, 0, 3, 5]:
        changed = bytearray(content)
        if turned is not None:
            changed[turned * BLOCK] ^= 1
        (place / 'a').write_bytes(changed)
        marks = [True] * (4 * GIB // BLOCK) + [i != turned for i in range(6)]
        wanted = done(reference.recheck_lines(marks), 0 if turned is None else 1)
        expect(program, ['recheck', str(torrent), str(place)], wanted)


def test_layer_of_65537_hashes(program, folder):
    """Made, judged, proved and verified: 17 siblings a piece."""
    length, marks = GIB + 1, [(77, b'x'), (GIB, b'y')]
    path = sparse(folder / 'f', length, marks)
    text, layer, root = v2_of(length, blocks_of(length, marks, ZERO_LEAF, sha256), BLOCK)
    torrent, proof = folder / 'torrent', folder / 'proof'
    words = ['make', '--name', 'f', '--piece-length', str(BLOCK)]
    expect(program, [*words, '--out', str(torrent), path], done())
    expect_equal('the torrent', True, torrent.read_bytes() == text)
    expect(program, ['check', str(torrent)], wanted_lines(text))
    expect(program, ['magnet', str(torrent)], wanted_lines(text, 'magnet'))
    view = judge(text)
    for index in [0, 1, 511, 32768, 65535, 65536]:
        wanted = reference.prove(view, 0, index)
        expect_equal('siblings', 17, wanted.count(b'sibling'))
        expect(program, ['prove', str(torrent), '0', str(index)], done(wanted))
        proof.write_bytes(wanted)
        expect(program, ['verify', root.hex(), str(length), str(BLOCK), str(proof)], done(b'yes\n'))
        proof.write_bytes(wanted.replace(layer[index].hex().encode(), layer[5].hex().encode()[::-1], 1))
        expect(program, ['verify', root.hex(), str(length), str(BLOCK), str(proof)], done(b'no\n', 1))
    expect(program, ['prove', str(torrent), '0', '65537'], refused('P1 Index'))
    changed = bytearray(text)
    changed[-20] ^= 1
    torrent.write_bytes(changed)
    expect(program, ['check', str(torrent)], refused('V21 LayerRoot'))


def test_proofs_of_10_siblings(program, folder):
    """Of a file of 513 blocks, whose tree is as high as one of 1,024."""
    content = random.Random(10).randbytes(512 * BLOCK + 1)
    text = make([((b'f',), content)], order('v2', True))
    torrent, proof = folder / 'torrent', folder / 'proof'
    torrent.write_bytes(text)
    view = judge(text)
    root = root_of([sha256(content[at:at + BLOCK]) for at in range(0, len(content), BLOCK)], 0)
    for index in [0, 511, 512]:
        wanted = reference.prove(view, 0, index)
        expect_equal('siblings', 10, wanted.count(b'sibling'))
        expect(program, ['prove', str(torrent), '0', str(index)], done(wanted))
        proof.write_bytes(wanted)
        expect(program, ['verify', root.hex(), str(len(content)), str(BLOCK), str(proof)], done(b'yes\n'))


def test_pieces_of_1_gib(program, folder):
    """The longest pieces of version 2: two of them, of which the second is a byte."""
    length, marks = GIB + 1, [(GIB - 1, b'xy')]
    path = sparse(folder / 'f', length, marks)
    text, _, _ = v2_of(length, blocks_of(length, marks, ZERO_LEAF, sha256), GIB)
    torrent = folder / 'torrent'
    torrent.write_bytes(text)
    expect(program, ['make', '--name', 'f', '--piece-length', str(GIB), path], done(text))
    expect(program, ['recheck', str(torrent), path], done(b'pieces 2 of 2\nbits c0\n'))
    os.truncate(path, GIB)
    expect(program, ['recheck', str(torrent), path], done(b'pieces 1 of 2\nbits 80\n', 1))


def free_memory():
    """How many bytes of memory the system has left."""
    with open('/proc/meminfo', encoding='ascii') as file:
        return next(int(line.split()[1]) << 10 for line in file if line.startswith('MemAvailable'))


def test_units_of_1_gib(program, folder):
    """The largest units of a stream, of one piece and of 1,024, which are held whole; larger ones are refused."""
    if free_memory() < 5 * GIB:
        raise Skipped('it needs 5 GiB of memory')
    length, marks = GIB + 1, [(GIB - 1, b'xy')]
    path = sparse(folder / 'f', length, marks)
    blocks = blocks_of(length, marks, ZERO_LEAF, sha256)
    words = ['make', '--name', 'f', '--how', 'streams', '--piece-length']
    for p, span in [(GIB, 1), (1 << 20, 1024)]:
        expect(program, [*words, str(p), '--span', str(span), path], done(v2_of(length, blocks, p)[0]))
    for p, span in [(GIB, 2), (GIB, 16), (GIB, 1024), (1 << 21, 1024), (1 << 29, 4)]:
        expect(program, [*words, str(p), '--span', str(span), path], refused('M3 Span'))


def test_short_files_in_units_of_256_mib(program, folder):
    """Short files beside a buffer that is so long that the thread which reads waits until each is given back."""
    if free_memory() < GIB:
        raise Skipped('it needs a GiB of memory')
    files = [((b'%d' % i,), b'%d' % i * 1000) for i in range(5)]
    place = folder / 'files'
    place.mkdir()
    for (name,), content in files:
        (place / os.fsdecode(name)).write_bytes(content)
    piece_length = 1 << 28
    wanted = make(files, order('v2', False, piece_length), {})
    words = ['make', '--name', 'f', '--kind', 'v2', '--piece-length', str(piece_length), '--how', 'streams', '--span',
             '1']
    expect(program, [*words, str(place)], done(wanted))


def crowd(count):
    """Paths of so many files in a few folders, some under names of 255 bytes."""
    paths = [(b'%06d' % i,) if i % 7 else (b'%06d' % i + b'n' * 249,) for i in range(count - 100)]
    long = 'é'.encode() * 127 + b'x'
    return sorted(paths + [(long, b'%03d' % i + b'm' * 252) for i in range(100)])


def test_folder_of_70000_names(program, folder):
    """A listing of over 65,536 names, most of empty files; made, also with letters for each, rechecked and judged."""
    paths = crowd(70_000)
    place = folder / 'files'
    files = []
    for i, path in enumerate(paths):
        content = b'%d' % i if i % 1000 == 0 else b''
        files.append((path, content))
    (place / os.fsdecode(paths[-1][0])).mkdir(parents=True)
    for path, content in files:
        with open(os.path.join(os.fsencode(place), *path), 'wb') as file:
            file.write(content)
    torrent = folder / 'torrent'
    words = ['make', '--name', 'f', '--kind', 'hybrid', '--piece-length', str(BLOCK), '--workers', '2', '--how']
    letters = {path: (b'x', b'h', b'hx')[i % 3] for i, (path, _) in enumerate(files)}
    attrs = folder / 'attrs'
    attrs.write_bytes(b''.join(b'%b %b\n' % (letters[path], b'/'.join(path)) for path in reversed(paths)))
    for how, given, more in [('halves', {}, []), ('streams', letters, ['--attrs', str(attrs)])]:
        wanted = make(files, order('hybrid', False), given)
        expect(program, [*words, how, *more, '--out', str(torrent), str(place)], done())
        expect_equal(f'the torrent by {how}', True, torrent.read_bytes() == wanted)
    lines = reference.recheck_lines([True] * 70)
    expect(program, ['recheck', str(torrent), str(place)], done(lines))
    expect(program, ['check', str(torrent)], wanted_lines(wanted))


def test_folder_of_12000_files(program, folder):
    """Each has bytes of its own: 12,000 planned files, and as many units."""
    rng = random.Random(5)
    files = [((b'%d' % (i // 100), b'%d' % (i % 100)), rng.randbytes(rng.randint(1, 40))) for i in range(12_000)]
    place = folder / 'files'
    for i in range(120):
        (place / str(i)).mkdir(parents=True)
    for path, content in files:
        with open(os.path.join(os.fsencode(place), *path), 'wb', buffering=0) as file:
            file.write(content)
    torrent = folder / 'torrent'
    for kind in ['v2', 'hybrid']:
        wanted = make(files, order(kind, False))
        words = ['make', '--name', 'f', '--kind', kind, '--piece-length', str(BLOCK), '--out', str(torrent), str(place)]
        expect(program, words, done())
        expect_equal(f'the {kind} torrent', True, torrent.read_bytes() == wanted)
    lines = reference.recheck_lines([True] * 12_000)
    expect(program, ['recheck', str(torrent), str(place)], done(lines))
    (place / '7' / '7').unlink()
    view = judge(wanted).files
    marks = [file.path != (b'7', b'7') for file in view]
    expect(program, ['recheck', str(torrent), str(place)], done(reference.recheck_lines(marks), 1))


def test_three_of_200000_files(program, folder):
    """Three of so many are damaged, and are fetched again by a line of shell."""
    place, copy = folder / 'files', folder / 'damaged'
    files = [((b'%d' % (i // 1000), b'%d' % (i % 1000)), b'%d' % i) for i in range(200_000)]
    for i in range(200):
        (place / str(i)).mkdir(parents=True)
    for path, content in files:
        with open(os.path.join(os.fsencode(place), *path), 'wb', buffering=0) as file:
            file.write(content)
    torrent = folder / 'torrent'
    torrent.write_bytes(make(files, order('v2', False)))
    subprocess.run(['cp', '-al', place, copy], check=True)
    for name, damaged in [('0/0', b'1'), ('77/7', b''), ('199/999', None)]:
        (copy / name).unlink()
        if damaged is not None:
            (copy / name).write_bytes(damaged)
    told = judge(torrent.read_bytes())
    contents = {path: content for path, content in files}
    contents |= {(b'0', b'0'): b'1', (b'77', b'7'): b'', (b'199', b'999'): None}
    inside = [contents[tuple(file.path)] for file in told.files]
    found = reference.files_found(told, inside)
    lines = reference.recheck_lines(reference.marks_of(told, inside))
    bad = reference.not_whole(found)
    expect_equal('the damaged ones', [b'0/0', b'199/999', b'77/7'], [b'/'.join(file.path) for file in bad])
    words = [str(torrent), str(copy)]
    expect(program, ['recheck', '--files', *words], done(lines + reference.found_lines(found), 1))
    expect(program, ['recheck', '--bad', *words], done(lines + reference.found_lines(bad), 1))
    fetch = f"cd {place}; {program} recheck --bad --null {' '.join(words)} | " \
            f"xargs -0r cp --remove-destination --parents -t {copy} --"
    subprocess.run(['bash', '-c', fetch], check=True)
    expect(program, ['recheck', *words], done(reference.recheck_lines([True] * 200_000)))
    expect(program, ['recheck', '--bad', '--null', *words], done())
    expect(program, ['check', '--null', str(torrent)],
           done(reference.ended_paths(file.path for file in told.files)))


def test_foreign_torrents_of_110000_entries(program, folder):
    """Some MiB of entries, of padding and files; and as many in a file tree."""
    entries = [{b'length': i % 3, b'path': [b'%d' % (i % 400), b'%06d' % i]} for i in range(110_000)]
    entries += [{b'attr': b'p', b'length': 1} for _ in range(1000)]
    total = sum(entry[b'length'] for entry in entries)
    v1 = encode({b'info': {b'files': entries, b'name': b'f', b'piece length': 100,
                           b'pieces': bytes(20 * -(-total // 100))}})
    tree = {b'%d' % i: {b'%03d' % j: {b'': {b'length': 0}} for j in range(400)} for i in range(275)}
    v2 = encode({b'info': {b'file tree': tree, b'meta version': 2, b'name': b'f', b'piece length': BLOCK}})
    torrent = folder / 'torrent'
    pieces = -(-total // 100)
    for text, wanted in [(v1, done(reference.recheck_lines([False] * pieces), 1)),
                         (v2, done(b'pieces 0 of 0\nbits \n'))]:
        torrent.write_bytes(text)
        view = judge(text)
        expect(program, ['check', str(torrent)], done(reference.check_lines(view)))
        expect(program, ['magnet', str(torrent)], done(reference.magnet(view)))
        expect(program, ['recheck', str(torrent), str(folder / 'absent')], wanted)
    expect(program, ['prove', str(torrent), '109999', '0'], refused('P2 NoTree'))
    expect(program, ['prove', str(torrent), '110000', '0'], refused('P1 Index'))


def test_64_names_of_a_path(program, folder):
    """The deepest path that is made, with names of 60 bytes; of each kind, and rechecked."""
    path = tuple(b'%02d' % i + b'd' * 58 for i in range(64))
    place = folder / 'files'
    deep = os.path.join(os.fsencode(place), *path[:-1])
    os.makedirs(deep)
    with open(os.path.join(deep, path[-1]), 'wb') as file:
        file.write(b'deep')
    (place / 'z').write_bytes(b'z')
    files = [(path, b'deep'), ((b'z',), b'z')]
    torrent = folder / 'torrent'
    for kind in ['v1', 'v2', 'hybrid']:
        wanted = make(files, order(kind, False))
        expect(program, ['make', '--name', 'f', '--kind', kind, '--piece-length', str(BLOCK), str(place)], done(wanted))
        torrent.write_bytes(wanted)
        expect(program, ['check', str(torrent)], wanted_lines(wanted))
        told = b'pieces 1 of 1\nbits 80\n' if kind == 'v1' else b'pieces 2 of 2\nbits c0\n'
        expect(program, ['recheck', str(torrent), str(place)], done(told))


def test_padding_over_1_mib(program, folder):
    """Padding of nearly 4 MiB in a hybrid, and of 3 MiB in foreign torrents, made and rechecked."""
    files = [((b'a',), b'ab'), ((b'b',), b'c' * 100_000), ((b'c',), b'd')]
    place = folder / 'files'
    place.mkdir()
    for (name,), content in files:
        (place / name.decode()).write_bytes(content)
    torrent = folder / 'torrent'
    wanted = make(files, order('hybrid', False, 1 << 22))
    for how in ['one', 'halves', 'board', 'streams']:
        words = ['make', '--name', 'f', '--kind', 'hybrid', '--piece-length', str(1 << 22), '--how', how,
                 '--workers', '3']
        expect(program, [*words, str(place)], done(wanted))
    torrent.write_bytes(wanted)
    expect(program, ['recheck', str(torrent), str(place)], done(b'pieces 3 of 3\nbits e0\n'))
    padding = 3 << 20
    joined = b'ab' + bytes(padding) + b'c' * 100_000
    for p in [BLOCK, 1 << 22, 1000, padding + 5]:
        info = {b'files': [{b'length': 2, b'path': [b'a']}, {b'attr': b'p', b'length': padding},
                           {b'length': 100_000, b'path': [b'b']}], b'name': b'f', b'piece length': p,
                b'pieces': b''.join(sha1(joined[at:at + p]) for at in range(0, len(joined), p))}
        torrent.write_bytes(encode({b'info': info}))
        marks = [True] * -(-len(joined) // p)
        expect(program, ['recheck', str(torrent), str(place)], done(reference.recheck_lines(marks)))


def test_tail_over_8_mib(program, folder):
    """Of a hybrid in pieces of 16 MiB: the last file with bytes has padding of nearly as much, or of 12 MiB behind a
    piece of its own; made each way, judged and rechecked."""
    piece_length = 16 << 20
    place, torrent = folder / 'files', folder / 'torrent'
    place.mkdir()
    (place / 'a').write_bytes(b'ab')
    (place / 'z').write_bytes(b'')
    for last in [5, (20 << 20) + 1]:
        sparse(place / 'b', last, [(last - 1, b'x')])
        files = [((b'a',), b'ab'), ((b'b',), bytes(last - 1) + b'x'), ((b'z',), b'')]
        pieces = 1 + -(-last // piece_length)
        for tail in [True, False]:
            wanted = make(files, order('hybrid', False, piece_length)._replace(tail=tail))
            for how, workers in [('one', 1), ('halves', 2), ('board', 3), ('streams', 2)] if tail else [('board', 2)]:
                words = ['make', '--name', 'f', '--kind', 'hybrid', '--piece-length', str(piece_length), '--how', how,
                         '--workers', str(workers), '--span', '1', *['--tail'] * tail, str(place)]
                expect(program, words, done(wanted))
            torrent.write_bytes(wanted)
            expect(program, ['check', str(torrent)], wanted_lines(wanted))
            expect(program, ['recheck', str(torrent), str(place)], done(reference.recheck_lines([True] * pieces)))


def test_pieces_of_1_mib(program, folder):
    """Files of whole pieces and others, a piece a unit: seven wait for the eighth."""
    rng = random.Random(13)
    mib = 1 << 20
    place, torrent = folder / 'files', folder / 'torrent'
    place.mkdir()
    lengths = [mib, mib, mib - 1, mib, mib, 5, mib, mib, mib + 1, 3 * mib, 77, mib, mib]
    files = [((b'%02d' % number,), rng.randbytes(length)) for number, length in enumerate(lengths)]
    for (name,), content in files:
        (place / name.decode()).write_bytes(content)
    for kind in ['v1', 'hybrid']:
        wanted = make(files, order(kind, False, mib))
        words = ['make', '--name', 'f', '--kind', kind, '--piece-length', str(mib), '--span', '1']
        for how, workers in [('one', 1), ('halves', 2), ('board', 1), ('board', 3), ('streams', 2)]:
            expect(program, [*words, '--how', how, '--workers', str(workers), str(place)], done(wanted))
        torrent.write_bytes(wanted)
        marks = [True] * (sum(-(-length // mib) for length in lengths) if kind == 'hybrid' else -(-sum(lengths) // mib))
        expect(program, ['recheck', str(torrent), str(place)], done(reference.recheck_lines(marks)))


def test_64_workers(program, folder):
    """Of random bytes, in every way of several workers, by every span: the torrent is the same."""
    content = random.Random(6).randbytes((24 << 20) + 321)
    path = folder / 'f'
    path.write_bytes(content)
    for kind in ['v1', 'v2', 'hybrid']:
        wanted = make([((b'f',), content)], order(kind, True))
        for how in ['halves', 'board', 'streams']:
            for workers, span in [(64, 1), (64, 16), (63, 4), (33, 1024), (5, 2)]:
                words = ['make', '--name', 'f', '--kind', kind, '--piece-length', str(BLOCK), '--how', how,
                         '--workers', str(workers), '--span', str(span), str(path)]
                expect(program, words, done(wanted))


def test_lengths_past_32_bits(program, folder):
    """Foreign torrents of a file of up to 2^50 bytes, which is missing: as many pieces as there are."""
    torrent = folder / 'torrent'
    for length, p in [(1 << 32, GIB), ((1 << 32) + 1, GIB), ((1 << 42) + 5, GIB), (1 << 50, GIB),
                      ((1 << 33) - 1, 1 << 20)]:
        pieces = -(-length // p)
        text = encode({b'info': {b'length': length, b'name': b'f', b'piece length': p, b'pieces': bytes(20 * pieces)}})
        torrent.write_bytes(text)
        expect(program, ['check', str(torrent)], wanted_lines(text))
        wanted = done(reference.recheck_lines([False] * pieces), 1)
        expect(program, ['recheck', str(torrent), str(folder / 'absent')], wanted)
        torrent.write_bytes(text.replace(b'6:pieces', b'6:piecez', 1))
        expect(program, ['check', str(torrent)], refused('V15 PiecesLength'))


def test_files_too_large(program, folder):
    """L3: a file of over 2^50 bytes, where the system can hold one; it is told once all lengths were asked."""
    place = '/dev/shm' if os.path.isdir('/dev/shm') and os.access('/dev/shm', os.W_OK) else str(folder)
    path = os.path.join(place, f'tor-tests-{os.getpid()}')
    try:
        for size, line, status in [((1 << 50) + 1, 'L3 TooLarge', 1), ((1 << 62), 'L3 TooLarge', 1)]:
            sparse(path, size)
            for kind in ['v1', 'v2', 'hybrid']:
                expect(program, ['make', '--name', 'f', '--kind', kind, path], refused(line, status))
    finally:
        if os.path.exists(path):
            os.remove(path)


def test_small_pieces(program, folder):
    """A foreign torrent of pieces of a byte: 70,001 of them, of which one is wrong."""
    content = bytes(random.Random(7).choices(range(256), k=70_001))
    hashes = {byte: hashlib.sha1(bytes([byte])).digest() for byte in range(256)}
    text = encode({b'info': {b'length': len(content), b'name': b'f', b'piece length': 1,
                             b'pieces': b''.join(hashes[byte] for byte in content)}})
    (folder / 'torrent').write_bytes(text)
    changed = bytearray(content)
    changed[65_536] ^= 1
    (folder / 'f').write_bytes(changed)
    marks = [i != 65_536 for i in range(len(content))]
    expect(program, ['recheck', str(folder / 'torrent'), str(folder / 'f')], done(reference.recheck_lines(marks), 1))


def test_lengths_about_powers_of_two(program, folder):
    """Files and torrents of exactly as many bytes as one read may give: none is taken for a fault."""
    rng = random.Random(9)
    place, torrent = folder / 'f', folder / 'torrent'
    for power in [10, 12, 13, 15, 16, 17, 20, 21]:
        for length in [(1 << power) - 1, 1 << power, (1 << power) + 1]:
            content = rng.randbytes(length)
            place.write_bytes(content)
            for kind, how in [('v1', 'one'), ('v2', 'one'), ('v1', 'streams'), ('v2', 'streams')]:
                wanted = make([((b'f',), content)], order(kind, True))
                words = ['make', '--name', 'f', '--kind', kind, '--piece-length', str(BLOCK), '--how', how, str(place)]
                expect(program, words, done(wanted))
            text = torrent_of_length(length)
            expect_equal('the torrent\'s length', length, len(text))
            torrent.write_bytes(text)
            expect(program, ['check', str(torrent)], wanted_lines(text))


def test_lengths_about_blocks(program, folder):
    """The last blocks of a file are hashed together, the short one among them, whatever its padding: files of two to
    eight blocks and more, and of nine runs of eight and more."""
    rng = random.Random(11)
    place = folder / 'f'
    ends = [0, 1, 54, 55, 56, 63, 64, 65, 119, 120, BLOCK - 1]
    lengths = [blocks * BLOCK + end for blocks in range(2, 9) for end in ends]
    for length in lengths + [9 * 8 * BLOCK + blocks * BLOCK + 57 for blocks in (0, 3, 7)]:
        content = rng.randbytes(length)
        place.write_bytes(content)
        wanted = done(make([((b'f',), content)], order('v2', True)))
        words = ['make', '--name', 'f', '--kind', 'v2', '--piece-length', str(BLOCK)]
        for how in ['one', 'streams']:
            expect(program, [*words, '--how', how, str(place)], wanted)
        expect(program, words, wanted, content)


def torrent_of_length(length):
    """A torrent of one empty file, and two comments that make it exactly so many bytes."""
    info = {b'length': 0, b'name': b'f', b'piece length': 1, b'pieces': b''}
    for first in (0, 1):
        bare = {b'comment': b'', b'info': info, b'more': b'x' * first}
        room = length - len(encode(bare))
        # The count of the comment has one digit in `bare`.
        for count in range(max(room - 8, 0), room + 1):
            text = encode({**bare, b'comment': b'x' * count})
            if len(text) == length:
                return text
    raise ValueError(length)
