"""The edits of wrong/, and copies of crates in which they are made. See wrong/README.md."""
import shutil
import subprocess
import sys
from pathlib import Path

ROOT = Path(__file__).resolve().parent.parent
WRONG = ROOT / 'wrong'
# The words by which `rattle check` reads a crate, each on a line.
WORDS = '''
. "$1/dist/kit.bash"
rlib_of() { if [ -n "$proved" ]; then echo "$proved/$2.rlib"; else echo "$1/crates/$2/out/rlib/$2.rlib"; fi; }
proved=$3
read_words "$1" "$2"
printf '%s\\n' "${words[@]}"
'''


class Edit:
    """A wrong body: (file, old, new) texts. A line of a word in SAYS is an attribute of that name."""

    SAYS = ()
    # Whether several lines `new:` in a row are as many lines of the file.
    TAKES_LINES = False

    def __init__(self, path):
        self.name, self.turns = path.stem, []
        vars(self).update(dict.fromkeys(self.SAYS, ''))
        file = old = None
        for number, line in enumerate(path.read_text().splitlines(), 1):
            word, _, rest = line.partition(':')
            rest = rest[1:]
            if word in self.SAYS:
                setattr(self, word, rest)
            elif word == 'file':
                file = rest
            elif word == 'old' and file:
                old = rest
            elif word == 'new' and old:
                self.turns.append((file, old, rest))
                old = None
            elif word == 'new' and self.turns and self.TAKES_LINES:
                *before, lines = self.turns.pop()
                self.turns.append((*before, f'{lines}\n{rest}'))
            elif line:
                sys.exit(f'{path}:{number}: no line of an edit: {line}')
        if not self.turns:
            sys.exit(f'{path}: it turns nothing')

    def places(self, texts):
        """The lines that it turns: None where a text of it does not stand once."""
        found = set()
        for file, old, new in self.turns:
            if file not in texts or texts[file].count(old) != 1:
                return None
            found.add((file, texts[file].count('\n', 0, texts[file].index(old)) + 1))
            texts = {**texts, file: texts[file].replace(old, new)}
        return found

    def turn(self, texts):
        for file, old, new in self.turns:
            texts[file] = texts[file].replace(old, new)


class Crate:
    """A crate, whose files are read as they are in a folder of its own."""

    def __init__(self, name, folder, proved):
        self.name, self.place = name, folder / name
        shutil.copytree(ROOT / 'crates' / name, self.place, ignore=shutil.ignore_patterns('out', 'must-fail'))
        self.texts = {str(path.relative_to(self.place)): path.read_text()
                      for pattern in ['src/**/*.rt', 'proofs/**/*.antt'] for path in self.place.glob(pattern)}
        told = subprocess.run(['bash', '-euc', WORDS, 'bash', ROOT, name, proved], check=True, text=True,
                              stdout=subprocess.PIPE).stdout
        self.words = told.splitlines()

    def with_edits(self, edits):
        texts = dict(self.texts)
        for edit in edits:
            edit.turn(texts)
        return texts

    def check(self, texts, *more):
        """What `rattle check` prints of the crate with these files."""
        for file, text in texts.items():
            (self.place / file).write_text(text)
        done = subprocess.run(['rattle', 'check', *self.words, *more], cwd=self.place, text=True, errors='replace',
                              stdin=subprocess.DEVNULL, stdout=subprocess.PIPE, stderr=subprocess.STDOUT, check=False)
        if done.returncode < 0:
            sys.exit(f'{self.name}: its check was ended by signal {-done.returncode}, so nothing is known of it')
        return done.stdout
