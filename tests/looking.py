"""What is found, refused and read of folders: links, FIFOs, what is missing, what the system does not tell, and files
that are exchanged once they were found."""
import os
import re
import shutil

from contents import BLOCK, v1_of_one
from faults import traced
from reference import encode, recheck_lines, sha1
from refuser import Meet, Refuser
from support import Failure, Told, done, expect, expect_equal, expect_told, refused, run


def lay_out(place):
    """A file `a` of six bytes, an empty file `b`, a folder `d` with a file `c` of three bytes, and links `l` to the
    file and `m` to the folder."""
    shutil.rmtree(place, ignore_errors=True)
    (place / 'd').mkdir(parents=True)
    (place / 'a').write_bytes(b'abcdef')
    (place / 'b').write_bytes(b'')
    (place / 'd' / 'c').write_bytes(b'xyz')
    (place / 'l').symlink_to(place / 'a')
    (place / 'm').symlink_to(place / 'd')


def torrent_of(files):
    """One of version 1 of these paths and contents, each file a piece of its own: as long as the longest, padded."""
    p = max([1] + [len(data) for _, data in files])
    entries, pieces = [], b''
    for path, data in files:
        entries.append({b'length': len(data), b'path': path.encode().split(b'/')})
        if data:
            entries.append({b'attr': b'p', b'length': p - len(data)})
            pieces += sha1(data + bytes(p - len(data)))
    return encode({b'info': {b'files': entries, b'name': b'f', b'piece length': p, b'pieces': pieces}})


def scan_lines(files, refusals=()):
    """What `scan` tells of these files and refusals, where all fits the shortest pieces."""
    lines = [f'{number} {length} {path}' for number, (path, length) in enumerate(files)]
    lines += [f'files {len(files)}', f'bytes {sum(length for _, length in files)}', 'piece length 16384']
    lines += [f'refused {refusal}' for refusal in refusals]
    return Told(1 if refusals else 0, ''.join(line + '\n' for line in lines).encode(), b'')


LINK, MISSING, FOLDER = 'F2 NotRegular link', 'E3 Missing missing', 'F2 NotRegular folder'
# Paths that are looked for, those that are found with their lengths, and why the others are refused.
NAMED = [
    (['a', 'd/c', 'd/e', 'l', 'm/c', 'n/c'], [('a', 6), ('d/c', 3)],
     [f'{MISSING} d/e', f'{LINK} l', f'{LINK} m/c', f'{MISSING} n/c']),
    (['d'], [], [f'{FOLDER} d']), (['a/c'], [], [f'{MISSING} a/c'])]


def test_what_is_found_and_refused(program, folder):
    place = folder / 'f'
    lay_out(place)
    expect(program, ['scan', str(place)], scan_lines([('a', 6), ('b', 0), ('d/c', 3)], [f'{LINK} l', f'{LINK} m']))
    for paths, found, refusals in NAMED:
        given = b''.join(path.encode() + b'\0' for path in paths)
        expect(program, ['scan', '--files-from', '-', str(place)], scan_lines(found, refusals), given)


def test_what_the_system_does_not_tell(program, folder):
    """A folder that is not opened, and a file of which nothing is told, beside a name that is no text and a FIFO."""
    place = folder / 'top'
    for name in ['c locked', 'e folder']:
        (place / name).mkdir(parents=True)
    for name in [b'\xff', b'a file', b'd hidden', b'f file']:
        with open(os.path.join(os.fsencode(place), name), 'wb'):
            pass
    os.mkfifo(place / 'b fifo')
    wanted = scan_lines([('a file', 0), ('f file', 0)], [
        'F2 NotRegular fifo b fifo', 'F4 System permission c locked', 'F4 System permission d hidden',
        'F1 NotUtf8 name \\xff'])
    inject = []
    for call, name in [('openat', 'c locked'), ('statx', 'd hidden')]:
        _, log = traced(program, ['scan', place], None, inject, folder / 'log', trace='openat,statx')
        asked = [line for line in log.splitlines() if line.startswith(call)]
        number = next(at for at, line in enumerate(asked, 1) if re.search(rf'/{name}/?"', line))
        inject.append(f'{call}:error=EACCES:when={number}')
    told, _ = traced(program, ['scan', place], None, inject, folder / 'log')
    expect_told(['scan', 'top'], wanted, told, f'with {inject}\n')


def test_files_of_a_torrent_that_cannot_be_read(program, folder):
    """A FIFO is missing, and is not opened, where it would wait; of a file that may not be opened, or of which nothing
    is told, that is the fault."""
    place, torrent = folder / 'top', folder / 'torrent'
    place.mkdir()
    for name in ['a file', 'hidden']:
        (place / name).write_bytes(b'abc')
    os.mkfifo(place / 'fifo')
    torrent.write_bytes(torrent_of([('a file', b'abc'), ('fifo', b'abc'), ('hidden', b'abc')]))
    words = ['recheck', '--files', '--explain', str(torrent), str(place)]
    lines = b'whole 1 1 3 3 a file\nmissing 0 1 - 3 fifo\nwhole 1 1 3 3 hidden\n'
    expect(program, words, done(recheck_lines([True, False, True]) + lines, 1))
    denied = 'Permission denied (os error 13)'
    for name, faults, line in [
            ('a file', ['openat:error=EACCES'], f'C1 Read file 0 at 0\ntor: file 0 is a file: {denied}'),
            ('hidden', ['statx:error=EACCES'], f'C1 Read file 2 at length\ntor: file 2 is hidden: {denied}'),
            ('hidden', ['statx:error=EACCES:when=2+', 'openat:error=EACCES'],
             f'C1 Read file 2 at 0\ntor: file 2 is hidden: {denied}')]:
        told, _ = traced(program, words, place / name, faults, folder / 'log')
        expect_told(words, refused(line, 3), told, f'with {faults} at {name}\n')


# Files that are looked for below a folder, a link or a way through one among them, and how each is found: the state,
# how many of its pieces hold, its pieces, the bytes that are there, its length, and its path; without links, and with
# them.
LOOKED_FOR = [
    ([('a', b'abcdef'), ('b', b''), ('d/c', b'xyz'), ('e', b'e'), ('l', b'abcdef'), ('m/c', b'xyz'), ('n/c', b'n')],
     ['whole 1 1 6 6 a', 'whole 0 0 0 0 b', 'whole 1 1 3 3 d/c', 'missing 0 1 - 1 e', 'link 0 1 - 6 l',
      'link 0 1 - 3 m/c', 'missing 0 1 - 1 n/c'],
     ['whole 1 1 6 6 a', 'whole 0 0 0 0 b', 'whole 1 1 3 3 d/c', 'missing 0 1 - 1 e', 'whole 1 1 6 6 l',
      'whole 1 1 3 3 m/c', 'missing 0 1 - 1 n/c']),
    ([('a/c', b'xyz'), ('d', b'xyz')], ['missing 0 1 - 3 a/c', 'missing 0 1 - 3 d'],
     ['missing 0 1 - 3 a/c', 'missing 0 1 - 3 d']),
    # A file that has no byte, but stands at a way through a file, at a folder, or at a link.
    ([('a/c', b''), ('d', b''), ('l', b'')], ['missing 0 0 - 0 a/c', 'missing 0 0 - 0 d', 'link 0 0 - 0 l'],
     ['missing 0 0 - 0 a/c', 'missing 0 0 - 0 d', 'whole 0 0 6 0 l'])]


def found_of(program, words):
    return run(program, words).out.decode().splitlines()[2:]


def test_where_links_are_not_followed(program, folder):
    place, torrent = folder / 'f', folder / 'torrent'
    lay_out(place)
    for files, without, followed in LOOKED_FOR:
        torrent.write_bytes(torrent_of(files))
        for options, wanted in [(['--no-links'], without), ([], followed)]:
            words = ['recheck', '--files', *options, str(torrent), str(place)]
            expect_equal(f'{options}', wanted, found_of(program, words))
    # A link at PATH itself is followed; below a place with nothing, and below the empty one, nothing is there.
    torrent.write_bytes(torrent_of([('c', b'xyz'), ('proc', b'')]))
    for path, wanted in [(str(place / 'm'), ['whole 1 1 3 3 c', 'missing 0 0 - 0 proc']),
                         (str(place / 'n'), ['missing 0 1 - 3 c', 'missing 0 0 - 0 proc']),
                         ('', ['missing 0 1 - 3 c', 'missing 0 0 - 0 proc'])]:
        for options in [['--no-links'], []]:
            words = ['recheck', '--files', *options, str(torrent), path]
            expect_equal(f'{options} at {path}', wanted, found_of(program, words))


def test_a_file_that_is_removed(program, folder):
    place, torrent = folder / 'f', folder / 'torrent'
    lay_out(place)
    torrent.write_bytes(v1_of_one(6, 6, sha1(b'abcdef')))
    words = ['recheck', '--files', str(torrent), str(place)]
    expect(program, words, done(recheck_lines([True]) + b'whole 1 1 6 6 a\n'))
    (place / 'a').unlink()
    expect(program, words, done(recheck_lines([False]) + b'missing 0 1 - 6 a\n', 1))


def exchanged(place):
    """Another file of as many bytes stands at the place of `a`."""
    (place / 'o').write_bytes(b'uvwxyz')
    (place / 'o').rename(place / 'a')


# What becomes of a file once it was listed, and what is told of it: where it is read at offsets, and once and in order.
LISTED = [('a becomes another one', exchanged, 'E2 Changed file 0', 'E1 Read file 0 at 0'),
          ('b grows', lambda place: (place / 'b').write_bytes(b'grown'), 'E2 Changed file 1', 'E1 Read file 1 at 0'),
          ('d/c is removed', lambda place: (place / 'd' / 'c').unlink(), 'E2 Changed file 2', 'E1 Read file 2 at 0')]


def lay_out_listed(place):
    lay_out(place)
    for link in 'lm':
        (place / link).unlink()


def test_files_that_change_once_they_were_listed(program, folder):
    """At the last call before a file is opened that was listed, all files were."""
    place = folder / 'f'
    refuser = Refuser(program, folder)
    words = ['make', '--name', 'f', '--piece-length', str(BLOCK), '--how']
    for how, column in [('one', 2), ('streams', 3)]:
        for row in LISTED:
            lines = set()
            for ended in refuser.each([*words, how, str(place)], Meet('so', does='hold'),
                                      act=lambda _: row[1](place), before=lambda: lay_out_listed(place)):
                lines.add((ended.status, ended.err.decode()))
            wanted = (3, f'tor: {row[column]}\n')
            if wanted not in lines:
                raise Failure(f'{row[0]}, {how}\nwanted  {wanted}\ncame    {lines}')


def exchange_with_links(place):
    """Links to other files, `x` and `z`, stand at the places of `a` and `b`, and one to a folder `y` at that of `d`."""
    (place / 'x').write_bytes(b'uvwxyz')
    (place / 'z').write_bytes(b'')
    (place / 'y').mkdir(exist_ok=True)
    (place / 'y' / 'c').write_bytes(b'uvw')
    for name, other in [('a', 'x'), ('b', 'z'), ('d', 'y')]:
        if not (place / name).is_symlink():
            (place / name).rename(place / f'old {name}')
            (place / name).symlink_to(place / other)


def test_links_that_take_the_places_of_files(program, folder):
    """A torrent of the other files: no piece of it is found through a link that comes at any moment."""
    place, torrent = folder / 'f', folder / 'torrent'
    refuser = Refuser(program, folder)
    torrent.write_bytes(torrent_of([('a', b'uvwxyz'), ('b', b''), ('d/c', b'uvw')]))
    words = ['recheck', '--files', '--no-links', '--workers', '1', str(torrent), str(place)]
    lines = set()
    for ended in refuser.each(words, Meet('solr', does='hold'), act=lambda _: exchange_with_links(place),
                              before=lambda: lay_out(place)):
        told = ended.out.decode().splitlines()
        if ended.status == 1 and not ended.err:
            expect_equal(f'at {ended.met}: the pieces', ['pieces 0 of 2', 'bits 00'], told[:2])
        lines.add((ended.status, ended.err.decode()) if ended.err else (ended.status, *told[2:]))
    for wanted in [(1, 'link 0 1 - 6 a', 'link 0 0 - 0 b', 'link 0 1 - 3 d/c'), (3, 'tor: C2 Changed file 0\n'),
                   (3, 'tor: C2 Changed file 1\n'), (1, 'bad 0 1 6 6 a', 'whole 0 0 0 0 b', 'bad 0 1 3 3 d/c')]:
        if wanted not in lines:
            raise Failure(f'wanted  {wanted}\ncame    {sorted(lines, key=str)}')


# The files of a torrent, and the others beside them: links are none of these, nor what stands below `.pad`.
EXTRA = [(['l', 'd/c', 'n', 'a'], '.pads b d.e '), (['m/c', 'd'], '.pads a b d.e d/c '),
         (['a', 'b', 'd.e', 'd/c', 'l', 'm', '.pads'], '')]


def test_what_stands_beside_the_files(program, folder):
    place, torrent = folder / 'f', folder / 'torrent'
    lay_out(place)
    (place / '.pad').mkdir()
    for name in ['d.e', '.pad/5', '.pads']:
        (place / name).write_bytes(b'')
    for paths, wanted in EXTRA:
        torrent.write_bytes(torrent_of([(path, b'') for path in sorted(paths)]))
        words = ['recheck', '--extra', str(torrent), str(place)]
        expect(program, words, done(wanted.replace(' ', '\n').encode(), int(bool(wanted))))
