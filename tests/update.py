"""The program docs/update.py, over harmed folders and a web server: it asks for the bytes that are in pieces that are
not right, for no other, and then all is there.
"""
import contextlib
import http.server
import os
import random
import re
import shlex
import shutil
import subprocess
import sys
import threading
from pathlib import Path
from urllib.parse import quote, unquote

from reference import BLOCK, bad_ranges, judge, marks_of, recheck_lines, side_by_side
from support import Told, done, expect, expect_equal, expect_told, refused, run

UPDATE = Path(__file__).resolve().parent.parent / 'docs' / 'update.py'
TIME_LIMIT = 60
LENGTHS = {'-dash': 3, '100% é?#&+': 5000, 'a b/ c d ': 3 * BLOCK + 100, 'big': 200_000, 'empty': 0,
           'folder/below/three': BLOCK, 'folder/one': 100, 'folder/two': 40_000, 'line\nfeed': 20_000, 'z': 1}


def contents(lengths):
    rng = random.Random('update')
    return {path: rng.randbytes(length) for path, length in lengths.items()}


FOLDER = contents(LENGTHS)
# A single file, below the folder that it lies in.
FILE = contents({'f 1\n': 150_001})


# What is done to a folder.

def change(place):
    content = bytearray(place.read_bytes())
    content[len(content) // 2] ^= 1
    place.write_bytes(content)


def cut(place):
    os.truncate(place, place.stat().st_size // 2)


def grow(place):
    with open(place, 'ab') as file:
        file.write(bytes(BLOCK))


def leave(place):
    pass


def remove(place):
    place.unlink()


def harms_of(path):
    """Each harm of one file."""
    return [{path: act} for act in (leave, change, cut, grow, remove)]


HARMS_OF_FILE = [*harms_of('f 1\n'), {'.': shutil.rmtree}]
HARMS_OF_FOLDER = [*harms_of('big'), *harms_of('a b/ c d '), {'empty': remove}, {'empty': grow}, {'folder/one': change},
                   {'folder': shutil.rmtree}, {'.': shutil.rmtree},
                   {'line\nfeed': remove, '100% é?#&+': cut, '-dash': change},
                   {'a b/ c d ': cut, 'big': change, 'empty': remove, 'folder': shutil.rmtree, 'line\nfeed': grow}]


class Handler(http.server.BaseHTTPRequestHandler):
    """Sends ranges of the server's files, and keeps which."""

    def do_GET(self):
        name = unquote(self.path).removeprefix('/mirror/')
        asked = re.fullmatch(r'bytes=(\d+)-(\d+)', self.headers['Range'] or '')
        if name not in self.server.files or not asked:
            self.send_error(404)
            return
        start, end, content = int(asked[1]), int(asked[2]) + 1, self.server.files[name]
        sent = content[start:min(end, start + self.server.most)] if self.server.has_ranges else content
        self.server.sent.append((name, start, start + len(sent)))
        self.send_response(206 if self.server.has_ranges else 200)
        self.send_header('Content-Length', str(len(sent)))
        self.end_headers()
        self.wfile.write(sent)

    def log_message(self, *words):
        pass


@contextlib.contextmanager
def web_server(files):
    with http.server.HTTPServer(('127.0.0.1', 0), Handler) as server:
        server.files, server.sent, server.has_ranges, server.most = files, [], True, 1 << 30
        thread = threading.Thread(target=server.serve_forever, args=[0.01])
        thread.start()
        try:
            yield server
        finally:
            server.shutdown()
            thread.join()


class Mirror:
    """A torrent of files, the folder in which they are to be kept, and the web server that has them."""

    def __init__(self, program, folder, kind, files, server):
        self.program, self.folder, self.files, self.server = program, folder, files, server
        self.place, self.torrent = folder / 'kept', folder / 'torrent'
        self.lay_out()
        single = self.place / next(iter(files)) if files is FILE else self.place
        words = ['--name', single.name, '--kind', kind, '--piece-length', str(BLOCK), '--out', str(self.torrent)]
        told = run(program, ['make', *words, str(single)])
        expect_equal('the end of make', (0, b''), (told.status, told.err))
        self.read = judge(self.torrent.read_bytes())
        (folder / 'tor').write_text(f'#!/bin/sh\nexec {shlex.quote(str(program))} "$@"\n')
        (folder / 'tor').chmod(0o755)

    def lay_out(self):
        shutil.rmtree(self.place, ignore_errors=True)
        for path, content in self.files.items():
            (self.place / path).parent.mkdir(parents=True, exist_ok=True)
            (self.place / path).write_bytes(content)

    def update(self, torrent=None):
        """What the program ends with; what the server sent meanwhile is in `sent`."""
        self.server.sent.clear()
        environment = {**os.environ, 'PATH': f'{self.folder}:{os.environ["PATH"]}', 'no_proxy': '127.0.0.1'}
        url = f'http://127.0.0.1:{self.server.server_port}/mirror'
        words = [sys.executable, UPDATE, torrent or self.torrent, self.place, url]
        told = subprocess.run(words, capture_output=True, timeout=TIME_LIMIT, check=False, env=environment)
        return Told(told.returncode, told.stdout, told.stderr)

    def there(self):
        """What the files have that are there, by their paths."""
        return {str(path.relative_to(self.place)): path.read_bytes()
                for path in self.place.rglob('*') if path.is_file()}

    def bad_ranges(self):
        """Of each file the bytes that are in pieces that do not hold: path, first byte, and end."""
        there = self.there()
        paths = [b'/'.join(file.path).decode() for file in self.read.files]
        marks = marks_of(self.read, [there.get(path) for path in paths])
        return [(path, start, end) for path, ranges in side_by_side(paths, bad_ranges(self.read, marks))
                for start, end in ranges]

    def times(self):
        return {str(path.relative_to(self.place)): (path.stat().st_ino, path.stat().st_mtime_ns)
                for path in self.place.rglob('*') if path.is_file()}

    def expect_whole(self, note):
        """All files are as they were made, and the torrent says so."""
        there = self.there()
        expect_equal(f'{note}the paths', sorted(self.files), sorted(there))
        expect_equal(f'{note}the files that differ', [], [path for path in there if there[path] != self.files[path]])
        marks = marks_of(self.read, [self.files[b'/'.join(file.path).decode()] for file in self.read.files])
        expect(self.program, ['recheck', str(self.torrent), str(self.place)], done(recheck_lines(marks)), note=note)


def mends(program, folder, kind, files, all_harms):
    """After each harm, the bytes of bad pieces are fetched, each once, and other files are not touched."""
    with web_server(files) as server:
        mirror = Mirror(program, folder, kind, files, server)
        for harms in all_harms:
            note = f'{kind}, {[(path, act.__name__) for path, act in harms.items()]}\n'
            mirror.lay_out()
            for path, act in harms.items():
                act(mirror.place / path)
            wanted, before = mirror.bad_ranges(), mirror.times()
            expect_told(['(update.py)'], done(), mirror.update(), note)
            expect_equal(f'{note}what is fetched', wanted, server.sent)
            mirror.expect_whole(note)
            left = before.keys() - harms.keys() - {path for path, _, _ in wanted}
            expect_equal(f'{note}the files that were right', {path: before[path] for path in left},
                         {path: time for path, time in mirror.times().items() if path in left})


def test_folder_v1(program, folder):
    mends(program, folder, 'v1', FOLDER, HARMS_OF_FOLDER)


def test_folder_v2(program, folder):
    mends(program, folder, 'v2', FOLDER, HARMS_OF_FOLDER)


def test_folder_hybrid(program, folder):
    mends(program, folder, 'hybrid', FOLDER, HARMS_OF_FOLDER)


def test_file_v1(program, folder):
    mends(program, folder, 'v1', FILE, HARMS_OF_FILE)


def test_file_v2(program, folder):
    mends(program, folder, 'v2', FILE, HARMS_OF_FILE)


def test_file_hybrid(program, folder):
    mends(program, folder, 'hybrid', FILE, HARMS_OF_FILE)


def test_other_bytes(program, folder):
    """A server that has other bytes is asked once more, and not for ever; once it has the right ones, for them alone.
    """
    other = {**FOLDER, 'big': bytes([FOLDER['big'][0] ^ 1]) + FOLDER['big'][1:]}
    with web_server(other) as server:
        mirror = Mirror(program, folder, 'v2', FOLDER, server)
        remove(mirror.place / 'big')
        expect_told(['(update.py)'], done(status=1), mirror.update())
        expect_equal('what is fetched', [('big', 0, 200_000), ('big', 0, BLOCK)], server.sent)
        server.files = FOLDER
        expect_told(['(update.py)'], done(), mirror.update())
        expect_equal('what is fetched', [('big', 0, BLOCK)], server.sent)
        mirror.expect_whole('')


def test_short_answers(program, folder):
    """What is lacking of a range is asked for again, from the first piece on that is not there."""
    with web_server(FOLDER) as server:
        mirror = Mirror(program, folder, 'v2', FOLDER, server)
        remove(mirror.place / 'big')
        server.most = 70_000
        expect_told(['(update.py)'], done(), mirror.update())
        wanted = [('big', 0, 70_000), ('big', 4 * BLOCK, 4 * BLOCK + 70_000), ('big', 8 * BLOCK, 200_000)]
        expect_equal('what is fetched', wanted, server.sent)
        mirror.expect_whole('')


def test_no_ranges(program, folder):
    """Of a server that sends whole files nothing is written."""
    with web_server(FOLDER) as server:
        mirror = Mirror(program, folder, 'v2', FOLDER, server)
        change(mirror.place / 'a b/ c d ')
        before, server.has_ranges = mirror.there(), False
        url = f'http://127.0.0.1:{server.server_port}/mirror/{quote("a b/ c d ")}'
        expect_told(['(update.py)'], Told(1, b'', f'no range of {url}\n'.encode()), mirror.update())
        expect_equal('the files', True, before == mirror.there())


def test_in_the_way(program, folder):
    """What is no file stays at a file's place, and ends the program. Once it is gone, the file is fetched."""
    with web_server(FOLDER) as server:
        mirror = Mirror(program, folder, 'v2', FOLDER, server)
        for act in (os.mkdir, os.mkfifo, lambda place: os.symlink('nowhere', place)):
            place = mirror.place / 'z'
            place.unlink()
            act(place)
            before = os.lstat(place)[:2]
            told = mirror.update()
            expect_equal('the status', 1, told.status)
            expect_equal('the fault', b'FileExistsError', told.err.splitlines()[-1].partition(b':')[0])
            expect_equal('the mode and number of what is in the way', before, os.lstat(place)[:2])
            subprocess.run(['rm', '-r', place], check=True)
            expect_told(['(update.py)'], done(), mirror.update())
            expect_equal('what is fetched', [('z', 0, 1)], server.sent)
        mirror.expect_whole('')


def test_faults(program, folder):
    """The program ends as `recheck` does, with its line, and asks for nothing."""
    with web_server(FOLDER) as server:
        mirror = Mirror(program, folder, 'v2', FOLDER, server)
        for torrent, wanted in [(mirror.place / 'empty', refused('V1 Bencode B1 Truncated at 0')),
                                (folder / 'none', refused('read fault', 3))]:
            expect_told(['(update.py)'], wanted, mirror.update(torrent))
            expect_equal('what is fetched', [], server.sent)
