"""Reads and plays scenes; README.md says how they are written."""
import os
import re
import subprocess
from pathlib import Path

from support import TIME_LIMIT, Failure, Skipped, Told, shown

FOLDER = Path(__file__).parent / 'scenes'
ESCAPE = re.compile(rb'\\(x[0-9a-f]{2}|\\)')


class Step:
    """A command as it is typed, the number of its line, and what is wanted of it."""

    def __init__(self, command, line):
        self.command, self.line = command, line
        self.out, self.err, self.status = [], [], 0


def names():
    return sorted(path.stem for path in FOLDER.glob('*.txt'))


def unescaped(text):
    return ESCAPE.sub(lambda match: b'\\' if match[1] == b'\\' else bytes([int(match[1][1:], 16)]), text)


def body_of(line):
    """The bytes that a line with a mark in front stands for; with `-` behind the mark it has no line feed."""
    if line[1:2] == b'-':
        return unescaped(line[3:])
    return unescaped(line[2:]) + b'\n'


def read(path):
    """The things that a scene lays out, what it needs, and its steps."""
    things, needs, steps = [], [], []
    for number, line in enumerate(path.read_bytes().splitlines(), 1):
        word, _, rest = line.partition(b' ')
        if line.startswith(b'#') or not line.strip():
            continue
        if word == b'$':
            steps.append(Step(rest, number))
        elif word == b'>':
            steps[-1].command += b'\n' + rest
        elif line[:1] == b'|' and steps:
            steps[-1].out.append(body_of(line))
        elif line[:1] == b'|':
            things[-1][2].append(body_of(line))
        elif line[:1] == b'!':
            steps[-1].err.append(body_of(line))
        elif word == b'=':
            steps[-1].status = int(rest)
        elif word in (b'file', b'folder', b'blocks') and not steps:
            things.append((word, rest.decode(), []))
        elif word == b'needs':
            needs.append(rest)
        else:
            raise Failure(f'{path}:{number}: no line of a scene: {line!r}')
    return things, needs, steps


def lay_out(folder, things):
    for word, rest, body in things:
        if word == b'blocks':
            name, _, count = rest.rpartition(' ')
            content = b''.join(bytes([i]) * 16384 for i in range(int(count)))
        else:
            name, content = rest, b''.join(body)
        place = folder / name
        if word == b'folder':
            place.mkdir(parents=True)
        else:
            place.parent.mkdir(parents=True, exist_ok=True)
            place.write_bytes(content)


def play(name, program, folder):
    path = FOLDER / f'{name}.txt'
    things, needs, steps = read(path)
    words = folder / 'words'
    place = folder / 'place'
    words.mkdir()
    place.mkdir()
    (words / 'tor').symlink_to(program)
    lay_out(place, things)
    environment = {'PATH': f'{words}:{os.environ["PATH"]}', 'LC_ALL': 'C.UTF-8', 'HOME': str(place)}
    for need in needs:
        if typed(need, place, environment).status != 0:
            raise Skipped(f'it needs `{need.decode()}`')
    failures = []
    for step in steps:
        told = typed(step.command, place, environment)
        wanted = Told(step.status, b''.join(step.out), b''.join(step.err))
        if told != wanted:
            failures.append(f'{path}:{step.line}\nrun     {step.command.decode()}\n'
                            f'wanted  {shown(wanted)}\ncame    {shown(told)}')
    if failures:
        raise Failure('\n'.join(failures))


def typed(command, place, environment):
    try:
        done = subprocess.run(['bash', '-c', command], cwd=place, env=environment, stdin=subprocess.DEVNULL,
                              capture_output=True, timeout=TIME_LIMIT, check=False)
    except subprocess.TimeoutExpired:
        raise Failure(f'run     {command.decode()}\nno end within {TIME_LIMIT} seconds') from None
    return Told(done.returncode, done.stdout, done.stderr)
