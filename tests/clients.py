"""What another client does with what `tor` writes: libtorrent, by Debian's python3-libtorrent. It reads magnet links,
makes a torrent beside `tor`, and seeds, downloads and checks the files of torrents (swarm.py)."""
import hashlib
import json
import os
import random
import shutil
import subprocess
from collections import namedtuple
from pathlib import Path

from reference import piece_count, recheck_lines, side_by_side
from support import Failure, Skipped, Told, done, expect, expect_equal, expect_told, run

# The Python that Debian's module is for.
PYTHON = '/usr/bin/python3'
SWARM = Path(__file__).resolve().parent / 'swarm.py'
# In seconds; swarm.py ends before that by itself.
TIME_LIMIT = 40
READ = '''
import json, libtorrent, sys
read = libtorrent.parse_magnet_uri(sys.stdin.read().strip())
hashes = read.info_hashes
json.dump({'name': read.name, 'trackers': read.trackers,
           'v1': str(hashes.v1) if hashes.has_v1() else None,
           'v2': str(hashes.v2) if hashes.has_v2() else None}, sys.stdout)
'''
NAMES = ['a', 'a b', 'sum=1&dn=2', '100%', 'é ☃ 𝄞', '~.-_', '+', 'a?b#c', '"\'<>\\']
TRACKERS = ['http://t.example/announce', 'http://t.example:80/a?key=1&x=%20#y', 'udp://[::1]:6969/announce']


def by_libtorrent(*words, data=b'', folder=None):
    """What a script writes that needs the module."""
    if not Path(PYTHON).exists():
        raise Skipped('no python3-libtorrent')
    told = subprocess.run([PYTHON, *words], input=data, capture_output=True, cwd=folder, timeout=TIME_LIMIT,
                          check=False)
    if b"No module named 'libtorrent'" in told.stderr:
        raise Skipped('no python3-libtorrent')
    if told.returncode:
        raise Failure(f'libtorrent: {told.stderr.decode()}')
    return told.stdout


def output(program, words, data=b''):
    told = run(program, words, data)
    expect_equal(f'the end of {words}', (0, b''), (told.status, told.err))
    return told.out


def test_magnet_links_are_read_back(program, folder):
    """Names and trackers with bytes of every sort come back from the link as they are in the torrent."""
    for index, name in enumerate(NAMES):
        kind, url = ['v1', 'v2', 'hybrid'][index % 3], TRACKERS[index % 3]
        torrent = Path(folder) / 'torrent'
        words = ['make', '--name', name, '--kind', kind, '--announce', url]
        torrent.write_bytes(output(program, words, name.encode()))
        hashes = dict(line.split(' ', 1) for line in output(program, ['check', str(torrent)]).decode().splitlines())
        link = output(program, ['magnet', '--name', '--trackers', str(torrent)])
        wanted = {'name': name, 'trackers': [url], 'v1': hashes.get('btih'),
                  'v2': hashes['btmh'][4:] if 'btmh' in hashes else None}
        expect_equal(f'the link of {name!r}', wanted, json.loads(by_libtorrent('-c', READ, data=link)))


# Makes a torrent of version 2 of the files that are listed below a folder, in libtorrent's own way.
MADE = '''
import libtorrent, os, sys
place, name, piece_length = sys.argv[1:4]
storage = libtorrent.file_storage()
for path in sorted(sys.stdin.buffer.read().split(b'\\0')[:-1], key=lambda path: path.split(b'/')):
    at = os.path.join(place.encode(), path)
    storage.add_file(name + '/' + path.decode(), os.stat(at).st_size)
made = libtorrent.create_torrent(storage, int(piece_length), libtorrent.create_torrent.v2_only)
os.mkdir('beside')
os.symlink(place, os.path.join('beside', name))
libtorrent.set_piece_hashes(made, 'beside')
print(libtorrent.torrent_info(libtorrent.bdecode(libtorrent.bencode(made.generate()))).info_hashes().v2)
'''


def test_a_list_of_files_beside_libtorrent(program, folder):
    """A tree of the system, with links, by the list of its files: libtorrent makes the same torrent of them."""
    place = Path('/usr/share/zoneinfo')
    if not place.is_dir():
        raise Skipped('no /usr/share/zoneinfo')
    listed = subprocess.run(['find', place, '-type', 'f', '-printf', '%P\\0'], capture_output=True, check=True).stdout
    torrent = Path(folder) / 'torrent'
    torrent.write_bytes(output(program, ['make', '--name', 'share', '--piece-length', '16384', '--files-from', '-',
                                         str(place)], listed))
    ours = output(program, ['check', str(torrent)]).decode().splitlines()[-1]
    theirs = by_libtorrent('-c', MADE, place, 'share', '16384', data=listed, folder=folder)
    expect_equal('the info hash of libtorrent', 'btmh 1220' + theirs.decode().strip(), ours)


# What libtorrent seeds, downloads and checks: the name of a torrent, the lengths of its files, their letters, and words
# for `make`. A single file has the path '.'.
Case = namedtuple('Case', 'name lengths letters words', defaults=({}, ()))
PIECE = 32768
# In version 1 a piece has bytes of up to four of them.
LENGTHS = {'a b/two pieces': 2 * PIECE, 'big': 200_000, 'empty': 0, 'sub/.hidden': 100, 'sub/small': 10,
           'sub/é ☃': 40_000, 'zz': 16384}
LETTERS = {'big': 'x', 'empty': 'x', 'sub/.hidden': 'h', 'zz': 'hx'}
CASES = [Case('file', {'.': 150_000}), Case('file of a piece', {'.': PIECE}, {'.': 'h'}),
         Case('program', {'.': 70_001}, {'.': 'x'}, ['--tail']), Case('folder', LENGTHS),
         Case('folder with letters', LENGTHS, LETTERS), Case('folder with a tail', LENGTHS, {}, ['--tail']),
         Case('folder with both', LENGTHS, LETTERS, ['--tail'])]


class Swarm:
    """Torrents of one kind of all cases: of what lies below `source`, and is downloaded to `target`."""

    def __init__(self, program, folder, kind):
        self.program, self.kind, self.folder = program, kind, folder
        self.source, self.target = folder / 'source', folder / 'target'
        self.target.mkdir()
        self.torrents = [self.made(case) for case in CASES]

    def made(self, case):
        """The place of the torrent, beside which its magnet link lies."""
        place, torrent, letters = self.source / case.name, self.torrent(case), self.folder / 'letters'
        lay_out(place, case)
        letters.write_text(''.join(f'{case.letters[path]} {case.name if path == "." else path}\n'
                                   for path in case.letters))
        output(self.program, ['make', '--name', case.name, '--kind', self.kind, '--piece-length', str(PIECE),
                              '--attrs', str(letters), *case.words, '--out', str(torrent), str(place)])
        Path(f'{torrent}.link').write_bytes(output(self.program, ['magnet', str(torrent)]))
        return torrent

    def torrent(self, case):
        return self.folder / f'{case.name}.torrent'

    def download(self, how='send'):
        by_libtorrent(SWARM, how, self.source, self.target, *self.torrents)

    def expect_whole(self, case):
        """All files are there, those with an `x` can be run, and `recheck` finds all pieces."""
        place = self.target / case.name
        expect_equal(f'the files of {case.name}', digests_below(self.source / case.name), digests_below(place))
        programs = {path for path in case.lengths if (place / path).stat().st_mode & 0o100}
        expect_equal(f'the programs of {case.name}', {path for path in case.letters if 'x' in case.letters[path]},
                     programs)
        lengths = [sum(case.lengths.values())] if self.kind == 'v1' else case.lengths.values()
        marks = [True] * sum(piece_count(length, PIECE) for length in lengths)
        expect(self.program, self.recheck(case, self.target), done(recheck_lines(marks)))

    def recheck(self, case, above):
        return ['recheck', str(self.torrent(case)), str(above / case.name)]

    def compare(self, harm, acts):
        """libtorrent and `tor` find the same pieces in a copy of `target` that is harmed."""
        harmed = self.folder / 'harmed'
        shutil.copytree(self.target, harmed)
        for case in CASES:
            for path, act in acts_on(case, acts).items():
                act(harmed / case.name / path)
        # libtorrent, which makes empty files that are missing, comes last.
        ours = [run(self.program, self.recheck(case, harmed)) for case in CASES]
        theirs = json.loads(by_libtorrent(SWARM, 'check', harmed, *self.torrents))
        for case, told, (when_added, by_force) in side_by_side(CASES, ours, theirs):
            note = f'{harm}: {case.name}\n'
            expect_equal(f'{note}the pieces that libtorrent finds', when_added, by_force)
            is_whole = set(acts_on(case, acts).values()) == {grow}
            expect_equal(f'{note}libtorrent finds all pieces', is_whole, all(by_force))
            wanted = Told(0 if is_whole else 1, recheck_lines(by_force), b'')
            expect_told(self.recheck(case, harmed), wanted, told, note)
        shutil.rmtree(harmed)


def lay_out(place, case):
    rng = random.Random(case.name)
    for path, length in case.lengths.items():
        (place / path).parent.mkdir(parents=True, exist_ok=True)
        # Who reads zeros past a file's end finds pieces of it that are not there.
        (place / path).write_bytes(rng.randbytes(length - length // 2) + bytes(length // 2))


def digests_below(place):
    return {str(path.relative_to(place)): hashlib.sha256(path.read_bytes()).hexdigest()
            for path in [place, *place.rglob('*')] if path.is_file()}


def change(place):
    content = bytearray(place.read_bytes())
    content[len(content) // 2] ^= 1
    place.write_bytes(content)


def cut(place):
    os.truncate(place, place.stat().st_size * 2 // 3)


def remove(place):
    place.unlink()


def grow(place):
    with open(place, 'ab') as file:
        file.write(b'more')


# What is done to files of a folder. That a folder stands at a file's place cannot be compared: libtorrent's check ends
# there with an error, and tells no piece of any file, while for `recheck` that file is missing.
HARMS = {'a byte changed': {'big': change}, 'cut': {'big': cut}, 'missing': {'big': remove}, 'too long': {'big': grow},
         'several': {'a b/two pieces': change, 'big': cut, 'empty': remove, 'sub/small': grow, 'sub/é ☃': remove},
         'neighbours': {'big': grow, 'sub/.hidden': cut, 'sub/small': change}}


def acts_on(case, acts):
    """What is done to the files of the case, by their paths. To a single file is done what else is done to `big`."""
    return {'.': acts['big']} if '.' in case.lengths else acts


def is_downloaded(program, folder, kind, how='send'):
    swarm = Swarm(program, folder, kind)
    swarm.download(how)
    for case in CASES:
        swarm.expect_whole(case)


def is_checked_alike(program, folder, kind):
    swarm = Swarm(program, folder, kind)
    swarm.download()
    for harm, acts in HARMS.items():
        swarm.compare(harm, acts)


def test_v1_is_downloaded(program, folder):
    is_downloaded(program, folder, 'v1')


def test_v2_is_downloaded(program, folder):
    is_downloaded(program, folder, 'v2')


def test_hybrid_is_downloaded(program, folder):
    is_downloaded(program, folder, 'hybrid')


def test_v1_is_downloaded_by_its_link(program, folder):
    is_downloaded(program, folder, 'v1', 'link')


def test_v2_is_downloaded_by_its_link(program, folder):
    """Of version 2 the layers, too, come from the peer."""
    is_downloaded(program, folder, 'v2', 'link')


def test_hybrid_is_downloaded_by_its_link(program, folder):
    is_downloaded(program, folder, 'hybrid', 'link')


def test_damaged_v1(program, folder):
    is_checked_alike(program, folder, 'v1')


def test_damaged_v2(program, folder):
    is_checked_alike(program, folder, 'v2')


def test_damaged_hybrid(program, folder):
    is_checked_alike(program, folder, 'hybrid')
