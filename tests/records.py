"""What is told to programs, of large torrents, long files and long paths: as JSON, and as paths ended by zero bytes."""
import json
import os
import random
import subprocess

import reference
from random_cases import expect_record
from reference import BLOCK, encode, judge, sha1
from sizes import GIB, ZERO_PIECE, sparse
from support import Failure, done, expect, expect_equal, refused

MIB = 1 << 20
NAMES = ['plain', 'é中', 'a "quote"', 'back\\slash', 'line\nfeed', '\x7f', '\u2028', '𝄞']


def expect_long(record, most):
    """That a record takes more bytes than that, as JSON has it at its shortest."""
    length = len(json.dumps(record, separators=(',', ':'), ensure_ascii=False).encode())
    if length <= most:
        raise Failure(f'wanted  a record of more than {most} bytes\ncame    {length}')


def test_json_over_1_mib(program, folder):
    """Of 24,000 files, of which none is there: names are written out there as JSON has it."""
    entries = [{b'length': i % 5, b'path': [f'{i % 300} {NAMES[i % 8]}'.encode(), f'{i:06} {NAMES[i % 7]}'.encode()]}
               for i in range(24_000)]
    pieces = -(-sum(entry[b'length'] for entry in entries) // 100)
    torrent = folder / 'torrent'
    torrent.write_bytes(encode({b'info': {b'files': entries, b'name': 'n"\\\n'.encode(), b'piece length': 100,
                                          b'pieces': bytes(20 * pieces)}}))
    view = judge(torrent.read_bytes())
    record = reference.check_record(view)
    expect_long(record, MIB)
    expect_record(program, ['check', '--json', str(torrent)], record)
    found = reference.files_found(view, [None] * len(entries))
    record = reference.recheck_record(view, [False] * pieces, found)
    expect_long(record, 2 * MIB)
    for option in ['--files', '--bad']:
        expect_record(program, ['recheck', '--json', option, str(torrent), str(folder / 'absent')], record, 1)


def test_json_past_100000_pieces(program, folder):
    """Padding of 2^31 bytes, whose piece of zeros is hashed once, between files of which one is damaged."""
    content = random.Random(11).randbytes(5 * BLOCK + 77)
    padding = 2 * GIB // BLOCK
    blocks = [sha1(content[at:at + BLOCK]) for at in range(0, len(content), BLOCK)]
    info = {b'files': [{b'length': BLOCK, b'path': [b'z']}, {b'attr': b'p', b'length': 2 * GIB},
                       {b'length': len(content), b'path': [b'a']}], b'name': b'f', b'piece length': BLOCK,
            b'pieces': ZERO_PIECE + ZERO_PIECE * padding + b''.join(blocks)}
    torrent, place = folder / 'torrent', folder / 'files'
    torrent.write_bytes(encode({b'info': info}))
    view = judge(torrent.read_bytes())
    place.mkdir()
    (place / 'z').write_bytes(bytes(BLOCK))
    for turned in [None, 3]:
        changed = bytearray(content)
        if turned is not None:
            changed[turned * BLOCK] ^= 1
        (place / 'a').write_bytes(changed)
        marks = [True] * (1 + padding) + [i != turned for i in range(6)]
        state, good = ('whole', 6) if turned is None else ('bad', 5)
        found = [reference.FileFound('whole', 1, 1, BLOCK, BLOCK, (b'z',)),
                 reference.FileFound(state, good, 6, len(content), len(content), (b'a',))]
        expect_record(program, ['recheck', '--json', '--files', str(torrent), str(place)],
                      reference.recheck_record(view, marks, found), 0 if turned is None else 1)


def test_json_of_lengths_past_32_bits(program, folder):
    """Of files of up to 2^50 bytes, which are missing."""
    torrent = folder / 'torrent'
    for length, p in [((1 << 32) - 1, MIB), (1 << 32, GIB), ((1 << 32) + 1, GIB), ((1 << 42) + 5, GIB), (1 << 50, GIB)]:
        pieces = -(-length // p)
        torrent.write_bytes(encode({b'info': {b'length': length, b'name': b'f', b'piece length': p,
                                              b'pieces': bytes(20 * pieces)}}))
        view = judge(torrent.read_bytes())
        expect_record(program, ['check', '--json', str(torrent)], reference.check_record(view))
        found = [reference.FileFound('missing', 0, pieces, None, length, (b'f',))]
        expect_record(program, ['recheck', '--json', '--files', str(torrent), str(folder / 'absent')],
                      reference.recheck_record(view, [False] * pieces, found), 1)


def test_json_of_files_past_32_bits(program, folder):
    """Files that are longer than the torrent says, by as much as 32 bits do not count, and of which as many bytes are
    told and few are there: what is not there is not read."""
    place, torrent = folder / 'files', folder / 'torrent'
    place.mkdir()
    rows = [(b'a', 5, (1 << 32) - 1), (b'b', 5, 1 << 32), (b'c', 5, (1 << 33) + 7), (b'd', (1 << 32) + 9, 1000),
            (b'e', 1 << 42, 5)]
    tree, layers, found = {}, {}, []
    for number, (name, told, there) in enumerate(rows):
        sparse(place / name.decode(), there)
        count = -(-told // GIB)
        if count == 1:
            root = reference.sha256(bytes(told))
        else:
            layer = [reference.sha256(b'%d %d' % (number, i)) for i in range(count)]
            root = reference.root_of(layer, reference.piece_level(GIB))
            layers[root] = b''.join(layer)
        tree[name] = {b'': {b'length': told, b'pieces root': root}}
        state, good = ('short', 0) if there < told else ('whole', 1)
        found.append(reference.FileFound(state, good, count, there, told, (name,)))
    info = {b'file tree': tree, b'meta version': 2, b'name': b'f', b'piece length': GIB}
    torrent.write_bytes(encode({b'info': info, b'piece layers': layers}))
    view = judge(torrent.read_bytes())
    marks = [file.state == 'whole' for file in found for _ in range(file.pieces)]
    words = [str(torrent), str(place)]
    expect_record(program, ['recheck', '--json', '--files', *words], reference.recheck_record(view, marks, found), 1)
    expect(program, ['recheck', '--files', *words],
           done(reference.recheck_lines(marks) + reference.found_lines(found), 1))


def test_paths_over_4000_bytes(program, folder):
    """A path whose place has 4,095 bytes, than which the system takes no longer one, and longer ones, of which the
    torrent alone knows."""
    longest = tuple(b'%02d' % i + b'n' * 253 for i in range(15)) + ('é\n'.encode() * 84 + b'x',)
    expect_equal('bytes of the place', 4095, len(b'/'.join((b'f',) + longest)))
    files = [(longest, b'deep'), ((b'z',), b'z')]
    foreign = files + [((b'y' * 5000, b'x'), b''), (tuple(b'%02d' % i + b'm' * 253 for i in range(40)), b'')]
    for listed in [files, foreign]:
        torrent, text = folder / 'torrent', torrent_of(listed)
        torrent.write_bytes(text)
        view = judge(text)
        paths = reference.ended_paths(file.path for file in view.files)
        expect(program, ['check', '--null', str(torrent)], done(paths))
        expect_record(program, ['check', '--json', str(torrent)], reference.check_record(view))
    # Of a longer place the system does not tell what is there.
    words = ['recheck', '--bad', '--null', 'torrent', 'f']
    expect(program, words, refused('C1 Read file 2 at length', 3), folder=folder)
    torrent.write_bytes(torrent_of(files))
    expect(program, words, done(b'/'.join(longest) + b'\0z\0', 1), folder=folder)
    for path, content in files:
        place = os.path.join(b'f', *path)
        script = 'mkdir -p "${1%/*}" && printf %s "$2" > "$1"'
        subprocess.run(['bash', '-c', script, 'bash', place, content], cwd=folder, check=True)
    expect(program, words, done(), folder=folder)
    (folder / 'f' / 'z').unlink()
    expect(program, words, done(b'z\0', 1), folder=folder)
    subprocess.run(['bash', '-c', 'printf DEEP > "$1"', 'bash', os.path.join(b'f', *longest)], cwd=folder, check=True)
    expect(program, words, done(b'/'.join(longest) + b'\0z\0', 1), folder=folder)


def torrent_of(files):
    """One of version 1, in pieces of four bytes."""
    entries = [{b'length': len(content), b'path': list(path)} for path, content in files]
    joined = b''.join(content for _, content in files)
    return encode({b'info': {b'files': entries, b'name': b'f', b'piece length': 4,
                            b'pieces': b''.join(sha1(joined[at:at + 4]) for at in range(0, len(joined), 4))}})
