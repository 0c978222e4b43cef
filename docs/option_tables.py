"""The commands of tor with their words, as the tables of crates/tor_words/src and docs/options.txt have them.

`Tables()` has what docs/options makes documents of, and what dist/same-words compares with the program's help. The
sources are read as Rust: constants and struct literals, no more.
"""
import re
from dataclasses import dataclass, field
from pathlib import Path

ROOT = Path(__file__).resolve().parent.parent
SOURCES = ROOT / 'crates' / 'tor_words' / 'src'
PARAGRAPHS = ROOT / 'docs' / 'options.txt'
# The values that are files.
FILES = {'FILE', 'PATH', 'PLAN', 'PART', 'PROOF', 'BYTES'}
# What the kit's clap adds, with the words of its help.
HELP = ('-h', '--help', 'Print help')
VERSION = ('-V', '--version', 'Print version')
HELP_COMMAND = ('help', 'Print help')
# A token of Rust: a string, a name or number, a mark of punctuation.
TOKEN = re.compile(r'"(?:[^"\\]|\\.)*"|\w+(?:::\w+)*|[^\s\w]', re.DOTALL)
CONSTANT = re.compile(r'^(?:pub )?const (\w+): [^=]+=\s+', re.MULTILINE)


class Wrong(Exception):
    """The tables or the paragraphs are not what this module reads."""


@dataclass
class Word:
    """An option, or an argument; `value` is how the help shows its value, `values` the only ones it may have."""
    name: str
    is_option: bool
    value: str | None
    values: list
    default: str | None
    is_required: bool
    repeats: bool
    help: str
    paragraph: str | None = None

    @property
    def shown(self):
        return ' '.join(filter(None, [self.key, self.value if self.is_option else None]))

    @property
    def key(self):
        return f'--{self.name}' if self.is_option else self.value

    @property
    def takes_file(self):
        return self.value in FILES

    @property
    def offered(self):
        """The words that a shell can offer for the value: the help of a number that may be `auto` says so."""
        return self.values or (['auto'] if re.search(r'\bor auto\b', self.help) else [])

    @property
    def short(self):
        """The help to its first colon, semicolon or parenthesis."""
        return re.split(r'[:;]| \(', self.help)[0]


@dataclass
class Command:
    """A command; `more` is what its help ends with."""
    name: str
    help: str
    more: str | None
    words: list
    usages: list = field(default_factory=list)
    like: str | None = None

    @property
    def options(self):
        return [word for word in self.words if word.is_option]

    @property
    def arguments(self):
        return [word for word in self.words if not word.is_option]


class Tokens:
    """Reads the values of Rust from the tokens of a text; constants are looked up by their names."""

    def __init__(self, text, constants):
        self.tokens = TOKEN.findall(text)
        self.constants = constants
        self.at = 0

    def take(self, wanted=None):
        token = self.tokens[self.at]
        if wanted and token != wanted:
            raise Wrong(f'{wanted} is wanted instead of {token}')
        self.at += 1
        return token

    def is_next(self, token):
        return self.tokens[self.at] == token

    def value(self):
        token = self.take()
        if token == '&':
            return self.value()
        if token == '[':
            return self.items(']', self.value)
        if token.startswith('"'):
            return re.sub(r'\\\n\s*', '', token[1:-1]).replace('\\"', '"')
        if token.isdecimal():
            return int(token)
        if self.is_next('('):
            self.take()
            return self.items(')', self.value)[0]
        if self.is_next('{'):
            self.take()
            return dict(self.items('}', self.member), form=token)
        if token.isupper():
            return Tokens(self.constants[token], self.constants).value()
        return token

    def items(self, end, item):
        found = []
        while not self.is_next(end):
            found.append(item())
            if not self.is_next(end):
                self.take(',')
        self.take(end)
        return found

    def member(self):
        name = self.take()
        self.take(':')
        return name, self.value()


def source(name):
    text = (SOURCES / name).read_text(encoding='utf-8')
    return re.sub(r'^\s*//.*\n', '', text, flags=re.MULTILINE)


def constants_of(text):
    """The text of each constant of a file, from its value on."""
    return {match.group(1): text[match.end():] for match in CONSTANT.finditer(text)}


def word_of(table):
    takes = table['takes'] if isinstance(table['takes'], dict) else {'form': table['takes']}
    form = takes['form'].removeprefix('Takes::')
    return Word(name=table['name'], is_option=not form.endswith(('Argument', 'Arguments')), value=takes.get('shown'),
                values=takes.get('names', []), default=takes.get('default'),
                is_required=form in ('Wanted', 'WantedUnless', 'Argument', 'NumberArgument'),
                repeats=form == 'Arguments', help=table['help'])


def tables():
    """Each command as its table has it, in the order of the help."""
    shared = constants_of(source('commands/shared.rt'))
    found = {}
    for path in sorted((SOURCES / 'commands').glob('*.rt')):
        text = source(f'commands/{path.name}')
        known = shared | constants_of(text)
        for match in re.finditer(r'^    (?=CommandTable \{)', text, re.MULTILINE):
            table = Tokens(text[match.end():], known).value()
            more = table['more'] if table['more'] != 'None' else None
            words = [word_of(word) for word in table['words']]
            found[table['name']] = Command(table['name'], table['about'], more, words)
    return {name: found[name] for name in re.findall(r'\b(\w+)_table\(\)', source('commands.rt'))}


def explain():
    """The option that each command has."""
    constants = constants_of(source('command_table.rt'))
    return word_of(Tokens(constants['EXPLAIN'], constants).value())


def about():
    """What the help tells of the program."""
    return re.search(r'\.about\("(.*?)"\)', source('command_line.rt')).group(1)


def paragraphs():
    """The sections of docs/options.txt, each with the paragraphs of its words: a line begins with a word and a colon,
    and goes on in lines that begin with blanks. Of `usage` there may be several."""
    sections = {}
    for line in PARAGRAPHS.read_text(encoding='utf-8').splitlines():
        if re.fullmatch(r'\[\w+\]', line):
            section = sections.setdefault(line[1:-1], {})
        elif line.startswith(' '):
            section[key][-1] += ' ' + line.strip()
        elif line and not line.startswith('#'):
            key, mark, text = line.partition(': ')
            if not mark:
                raise Wrong(f'docs/options.txt: no colon and blank after a word: {line}')
            section.setdefault(key, []).append(text)
    return sections


def commands():
    """Each command with its paragraphs. A word that has none is described by the command that `like` names."""
    found, sections = tables(), paragraphs()
    for command in found.values():
        section = sections.get(command.name, {})
        command.usages = section.pop('usage', [])
        command.like = section.pop('like', [None])[0]
        for word in command.words:
            word.paragraph = section.pop(word.key, [None])[0]
            if not word.paragraph and not any(it.key == word.key for it in like(found, command)):
                raise Wrong(f'docs/options.txt: {command.name} has no paragraph of {word.key}')
        known = {word.key for word in command.words}
        cited = {it for usage in command.usages for it in re.findall(r'--[a-z-]+|\b[A-Z]{2,}\b', usage)}
        cited -= {'OPTIONS', *(word.value for word in command.words)}
        for wrong in [*section, *sorted(cited - known)]:
            raise Wrong(f'docs/options.txt: {command.name} has no {wrong}')
    return list(found.values())


def like(found, command):
    return found[command.like].words if command.like else []


class Tables:
    """All that the pages are made from."""

    def __init__(self):
        self.about = about()
        self.commands = commands()
        self.explain = explain()
        sections = paragraphs()
        self.general = {key: texts[0] for key, texts in sections['tor'].items()}
        if list(self.general) != [f'{HELP[0]}, {HELP[1]}', f'{VERSION[0]}, {VERSION[1]}', self.explain.key]:
            raise Wrong(f'docs/options.txt: [tor] has {" ".join(self.general)}')
        self.statuses = {key: texts[0] for key, texts in sections['status'].items()}
        self.named = [*((it.name, it.help) for it in self.commands), HELP_COMMAND]
        self.names = [name for name, _ in self.named]
