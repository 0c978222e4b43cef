"""The commands of docs/MANUAL.md, run as they are printed there, in its order: each ends as the page says, and prints
what stands below it. Those for a cluster are tried by tests/cluster, and docs/update.py by update.py.
"""
import os
import re
from pathlib import Path

from scenes import typed
from support import Told, expect_equal, expect_told

PAGE = Path(__file__).resolve().parent.parent / 'docs' / 'MANUAL.md'
FENCE = re.compile(r'^```(\w*)\n(.*?)^```$', re.MULTILINE | re.DOTALL)
# What wants a cluster or a web server.
ELSEWHERE = re.compile(r'sbatch|SBATCH|parallel|update\.py')
# Folders that the page has at the root.
AT_ROOT = re.compile(r'(?<![\w.])/(srv|mnt|data)/')
# The status of a command if it is not 0: something is refused, or not there.
STATUSES = {'tor scan films': 1, 'tor recheck --bad films.torrent /srv/films': 1}


def blocks():
    """The blocks of commands of the page, each with what it prints, or None if the page does not show that."""
    for language, text in FENCE.findall(PAGE.read_text(encoding='utf-8')):
        if text.startswith('$ '):
            command, _, printed = text[2:].partition('\n')
            yield command, printed
        elif language == 'sh' and not ELSEWHERE.search(text):
            yield text, None


class Reader:
    """Somebody who types what the page says, in a folder with all that it names."""

    def __init__(self, program, folder):
        self.place = folder / 'place'
        words = folder / 'words'
        words.mkdir()
        (words / 'tor').symlink_to(program)
        self.environment = {'PATH': f'{words}:{os.environ["PATH"]}', 'LC_ALL': 'C.UTF-8', 'HOME': str(self.place)}
        for films in 'films', 'srv/films', 'mnt/mirror/films', 'data/films':
            self.lay(f'{films}/a.iso', b'a' * 1200)
            self.lay(f'{films}/notes/readme', b'b' * 88)
        (self.place / 'films' / 'latest').symlink_to('a.iso')
        os.mkfifo(self.place / 'films' / 'pipe')
        (self.place / 'srv' / 'films' / 'a.iso').unlink()
        (self.place / 'srv' / 'aside').mkdir()
        self.lay('srv/films/a line\nfeed', b'extra')

    def lay(self, name, content):
        place = self.place / name
        place.parent.mkdir(parents=True, exist_ok=True)
        place.write_bytes(content)

    def type(self, command):
        rooted = AT_ROOT.sub(lambda found: f'{self.place}/{found.group(1)}/', command)
        return typed(f'set -e\n{rooted}'.encode(), self.place, self.environment)


def test_commands(program, folder):
    reader, count = Reader(program, folder), 0
    for command, printed in blocks():
        if 'foreign.torrent' in command:
            (reader.place / 'foreign.torrent').write_bytes((reader.place / 'films.torrent').read_bytes())
        told = reader.type(command)
        wanted = told.out if printed is None else printed.encode()
        expect_told([f'({command})'], Told(STATUSES.get(command, 0), wanted, b''), told)
        count += 1
    expect_equal('blocks of commands', 11, count)
    told = reader.type('tor recheck --bad films.torrent /srv/films')
    expect_equal('what is there after the repair', Told(0, b'pieces 2 of 2\nbits c0\n', b''), told)
    expect_equal('what was moved away', ['a line\nfeed'], os.listdir(reader.place / 'srv' / 'aside'))
