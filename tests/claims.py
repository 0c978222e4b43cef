"""What a recheck costs beyond the bytes that it reads. What a torrent claims in few bytes, as pieces, long places and
deep folders, is held in little memory before any is found. A file is opened once for each unit that is wholly there."""
import hashlib
import os
import resource

import reference
from reference import BLOCK, encode, root_of, sha256
from refuser import ALL_LATER, Meet, Refuser
from support import Failure, done, expect, expect_equal, shown_words


def limited(kibibytes):
    """Limits the address space of a process, in which the C library has one arena."""
    resource.setrlimit(resource.RLIMIT_AS, (kibibytes << 10, kibibytes << 10))


def in_tree(tree, layers=()):
    info = {b'file tree': tree, b'meta version': 2, b'name': b'a', b'piece length': BLOCK}
    return encode({b'info': info, b'piece layers': dict(layers)})


def file_of(length, root):
    return {b'': {b'length': length, b'pieces root': root}}


def expect_nothing_there(program, folder, text, count, ways):
    """A recheck in each of these ways, in an address space of so many KiB, finds none of so many pieces, or of those
    of its part. If none is there, it starts no thread, however many workers it may have."""
    (folder / 'torrent').write_bytes(text)
    for words, kibibytes in ways:
        parts = int(words[1].split('/')[1]) if '--part' in words else 1
        wanted = done(reference.recheck_lines([False] * (count // parts)), 1 if count else 0)
        expect(program, ['recheck', '--workers', '64', *words, str(folder / 'torrent'), str(folder)], wanted,
               preexec_fn=lambda room=kibibytes: limited(room), env={**os.environ, 'MALLOC_ARENA_MAX': '1'})


def test_pieces_of_one_layer(program, folder):
    """512 files of one root, in half a megabyte: 8,388,608 pieces, for each of which 6 bytes may be held, or 8 to keep
    going or in a part of them. So many fill what grows by doubling."""
    hashes = [hashlib.sha256(b'%d' % number).digest() for number in range(1 << 14)]
    root = root_of(hashes)
    tree = {b'%03d' % number: file_of(len(hashes) * BLOCK - number, root) for number in range(512)}
    text = in_tree(tree, {root: b''.join(hashes)}.items())
    expect_nothing_there(program, folder, text, 512 * len(hashes),
                         [([], 55_000), (['--no-links'], 55_000), (['--keep-going'], 72_000),
                          (['--part', '0/4'], 72_000), (['--part', '3/4'], 72_000)])


def test_files_below_long_names(program, folder):
    """30,000 files below 14 folders with names of 250 bytes: their places have 105 MB."""
    tree = {b'%05d' % number: file_of(1, sha256(b'a')) for number in range(30_000)}
    for letter in b'abcdefghijklmn':
        tree = {bytes([letter]) * 250: tree}
    expect_nothing_there(program, folder, in_tree(tree), 30_000, [([], 100_000), (['--no-links'], 100_000)])


def test_files_below_deep_folders(program, folder):
    """40,000 files below 95 folders, one in the other, in a megabyte: 760 bytes for the names of each path, twice."""
    tree = {b'%05d' % number: {b'': {b'length': 0}} for number in range(40_000)}
    for _ in range(95):
        tree = {b'a': tree}
    expect_nothing_there(program, folder, in_tree(tree), 0, [([], 90_000), (['--keep-going'], 90_000)])


def test_folders_below_deep_folders(program, folder):
    """60 folders with a folder in each, below 700 others, one in the other: each question to the system names few
    folders, however deep it is asked."""
    top = os.getcwd()
    place = folder / 'deep'
    place.mkdir()
    os.chdir(place)
    for _ in range(700):
        os.mkdir('d')
        os.chdir('d')
    for number in range(60):
        os.makedirs(f'{number}/e')
    os.chdir(top)
    words = ['make', '--name', 'f', str(place)]
    ended = Refuser(program, folder).run(words, Meet('so', 1, ALL_LATER, 'tell'))
    expect_equal('the answer', (1, b'', b'tor: L4 NoFiles\n'), ended[:3])
    # What is open is asked by its descriptor.
    most = max(met.place.count('/') for met in ended.met if met.file == -100)
    if most > 20 + str(place).count('/'):
        raise Failure(f'{shown_words(words)}: a question with {most} components')


def expect_opens(program, folder, count, rows):
    """A recheck of a file of so many pieces, as each kind. A row has words, how many bytes are cut off the file, the
    first piece that is told, and how often the file is opened as v1, v2 and hybrid."""
    refuser, place, torrent = Refuser(program, folder), folder / 'file', folder / 'torrent'
    content = os.urandom(count * BLOCK)
    for index, kind in enumerate(['v1', 'v2', 'hybrid']):
        place.write_bytes(content)
        made = refuser.run(['make', '--name', 'file', '--kind', kind, '--piece-length', str(BLOCK), str(place)])
        expect_equal(f'{kind}: status of make', 0, made.status)
        torrent.write_bytes(made.out)
        for words, cut, first, opened in rows:
            place.write_bytes(content[:len(content) - cut])
            ended = refuser.run(['recheck', *words, str(torrent), str(place)], Meet('o', 1, ALL_LATER, 'tell'))
            expect_equal(f'{kind}, {words}, {cut} bytes cut off',
                         reference.recheck_lines([n < count - cut for n in range(first, count)]), ended.out)
            expect_equal(f'{kind}, {words}, {cut} bytes cut off: opened', opened[index],
                         sum(met.place == str(place) for met in ended.met))


def test_opens_of_a_recheck(program, folder):
    """65 pieces are five units of at most 16. Without its last byte the last of them is not there."""
    expect_opens(program, folder, 65, [(['--workers', '1'], 0, 0, [5, 5, 5]),
                                       (['--workers', '1'], 1, 0, [4, 4, 4])])


def test_opens_of_a_part(program, folder):
    """The second half of 165 pieces begins within a unit, of which it has eight; then come four units and five pieces.
    With version 1 the bytes of a megabyte are hashed together, which ends within a unit. Two workers would have fewer
    than 64 pieces each, so every piece is a unit."""
    expect_opens(program, folder, 165, [(['--workers', '1', '--part', '1/2'], 0, 88, [14, 13, 14]),
                                        (['--workers', '2', '--part', '1/2'], 0, 88, [77, 77, 77])])
