"""Changed torrents: bytes turned, cut out, doubled and moved, lengths and numbers changed, under a limit of memory.

`check` has to answer each as the reference does, and what it accepts has to be the spelling of its tree. `recheck` has
to answer with a bit for each piece of what was accepted, and as `check` of what was not. bench/changed tries millions,
by the program or by the library.
"""
import importlib
import json
import marshal
import os
import re
import sys
from collections import namedtuple
from contextlib import nullcontext
from functools import lru_cache
from pathlib import Path

import random_cases
import reference
from foreign import BASES
from reference import Refused, decode, encode, judge
from support import Failure, done, refused, shown

SHIPPED = Path(__file__).resolve().parent.parent / 'dist' / 'library'
# The address space of a process. A torrent here has at most some 100 KB.
ROOM = 100_000 << 10
# Bytes of a torrent's files, and pieces, up to which the reference tells the bits too.
FEW_BYTES, FEW_PIECES = 1 << 22, 2000
# What `check` has to tell of a text, and the torrent that it is, None where it is none.
Answer = namedtuple('Answer', 'lines torrent')
NUMBER = re.compile(rb'[0-9]+')
NUMBERS = [b'', b'0', b'00', b'-1', b'1', b'16384', b'16383', b'32768', b'1073741824', b'1125899906842624',
           b'1125899906842625', b'4611686018427387904', b'9223372036854775807', b'9223372036854775808',
           b'18446744073709551616', b'99999999999999999999']
PARTS = [b'i', b'e', b'0', b'9', b'-', b':', b'l', b'd', b'de', b'le', b'0:', b'i0e', b'1:a', b'd0:d6:lengthi0eee',
         b'6:lengthi1e', b'4:attr1:p', b'4:attr1:l', b'4:pathl1:ae', b'\0', b'\xff']


class Departs(Failure):
    """The answer to a text is not the one that it has to be."""

    def __init__(self, failure, text):
        super().__init__(failure)
        self.text = text


def spot(rng, text, most=64):
    """A place, and one some bytes behind it."""
    start = rng.randrange(len(text) + 1)
    return start, min(len(text), start + rng.choice([1, 1, 2, 5, 20, 32, most]))


def turn(rng, text):
    if text:
        text[rng.randrange(len(text))] ^= 1 << rng.randrange(8)


def put(rng, text):
    start, end = spot(rng, text)
    text[start:rng.choice([start, start, end])] = rng.choice(PARTS)


def cut_out(rng, text):
    start, end = spot(rng, text, 1000)
    del text[start:end]


def cut_off(rng, text):
    del text[rng.randrange(len(text) + 1):]


def double(rng, text):
    start, end = spot(rng, text, 1000)
    text[end:end] = text[start:end] * rng.choice([1, 1, 2, 100])


def move(rng, text):
    start, end = spot(rng, text, 200)
    part = text[start:end]
    del text[start:end]
    at = rng.randrange(len(text) + 1)
    text[at:at] = part


def change_number(rng, text):
    """A length of a string, or an integer."""
    found = list(NUMBER.finditer(text))
    if found:
        match = rng.choice(found)
        near = b'%d' % max(0, int(match[0][:19]) + rng.choice([-1, 1, -2, 10, 16384, -16384]))
        others = [near, near, match[0] + b'0', b'0' + match[0], rng.choice(NUMBERS)]
        text[match.start():match.end()] = rng.choice(others)


CHANGES = [turn, turn, put, cut_out, cut_off, double, move, change_number, change_number]


@lru_cache(maxsize=1)
def packed(text):
    """Its tree, in a form of which a copy is soon made."""
    return marshal.dumps(decode(text))


def changed(rng, text):
    """The torrent with some bytes changed, or some places of its tree."""
    count = rng.choice([1, 1, 1, 2, 3, 8])
    if rng.random() < 0.5:
        root = marshal.loads(packed(text))
        for _ in range(count):
            random_cases.change(rng, root)
        return encode(root)
    text = bytearray(text)
    for _ in range(count):
        rng.choice(CHANGES)(rng, text)
    return bytes(text)


def lawful(rng, others=()):
    """A torrent to be changed: one of the foreign ones, or one as other makers write it."""
    way = rng.random()
    if others and way < 0.3:
        return rng.choice(others)
    if way < 0.7:
        return encode(rng.choice(list(BASES.values())))
    return encode(random_cases.random_foreign(rng)[0])


def lay_out(folder):
    """Files of the names that the foreign torrents have."""
    for name, content in [('a', b'ab'), ('b/c', b'x' * 40000), ('b/d', b''), ('e', b'c')]:
        (folder / name).parent.mkdir(parents=True, exist_ok=True)
        (folder / name).write_bytes(content)


def torrent_of(text):
    """The torrent that a text is, or Refused. The text has to be the spelling of its tree."""
    torrent = judge(text)
    if encode(torrent.root) != text:
        raise Failure(f'the reference takes for a torrent what is no spelling of a tree: {text!r}')
    return torrent


def judged(text):
    """The answer to a text."""
    try:
        torrent = torrent_of(text)
    except Refused as refusal:
        return Answer(refused(refusal.line), None)
    return Answer(done(reference.check_lines(torrent)), torrent)


def try_texts(again, folder, texts, rechecks):
    """Judges texts, and rechecks by those that are torrents, and by others where `rechecks` says so: of each text the
    code of the condition that held, or `accepted`."""
    answers = [judged(text) for text in texts]
    expect(again, ['check'], texts, answers, is_check)
    chosen = [i for i, answer in enumerate(answers) if answer.torrent or rechecks[i]]
    expect(again, ['recheck', str(folder)], [texts[i] for i in chosen], [answers[i] for i in chosen],
           lambda answer, told: is_recheck(answer.torrent, folder, told) if answer.torrent else is_check(answer, told))
    return ['accepted' if answer.torrent else answer.lines.err.split()[1].decode() for answer in answers]


def is_check(answer, told):
    return told == answer.lines


def expect(again, words, texts, answers, is_right):
    """Runs a command on each of these texts. Where one departs it is run alone, and told as it departs there, or that
    it departs after others only."""
    came = again.run(words[0], texts, *words[1:])
    for text, answer, told in zip(texts, answers, came.told):
        if not is_right(answer, told):
            alone(again, words, text, answer, is_right, shown(told))
    if came.fault:
        at = min(len(came.told), len(texts) - 1)
        alone(again, words, texts[at], answers[at], is_right, came.fault)


def alone(again, words, text, answer, is_right, beside_others):
    came = again.run(words[0], [text], *words[1:])
    here = came.fault or shown(came.told[0])
    if not came.fault and is_right(answer, came.told[0]):
        here = f'right alone; after others in one process {beside_others}'
    wanted = 'a bit for each piece' if answer.torrent and words[0] == 'recheck' else shown(answer.lines)
    raise Departs(f'tor {words[0]} of {text[:300]!r} ({len(text)} bytes)\nwanted  {wanted}\ncame    {here}', text)


def is_recheck(torrent, folder, told):
    """Whether there is a bit for each piece, or a fault of a file. Where there are few bytes, each bit is known."""
    if re.fullmatch(rb'tor: (C1 Read file [0-9]+ at (length|[0-9]+)|F4 System)\n', told.err):
        return told.status == 3 and not told.out
    match = re.fullmatch(rb'pieces ([0-9]+) of ([0-9]+)\nbits ([0-9a-f]*)\n', told.out)
    if not match or told.err or int(match[2]) != reference.count_pieces(torrent):
        return False
    bits = bytes.fromhex(match[3].decode())
    is_counted = sum(byte.bit_count() for byte in bits) == int(match[1]) and len(bits) == -(-int(match[2]) // 8)
    return is_counted and told.status == int(match[1] != match[2]) and are_marks(torrent, folder, told)


def are_marks(torrent, folder, told):
    lengths = [length for _, length, _ in torrent.entries] + [file.length for file in torrent.files]
    is_long = sum(lengths) > FEW_BYTES or reference.count_pieces(torrent) > FEW_PIECES
    return is_long or told.out == lines_of(ByPieces(torrent), folder)


class ByPieces:
    """A torrent, equal to others that have the same pieces of the same files."""

    def __init__(self, torrent):
        self.torrent = torrent
        files = [tuple(file) for file in torrent.files]
        decides = torrent.kind, torrent.piece_length, torrent.entries, torrent.info.get(b'pieces'), files
        # In version 2 of the format equal values have equal bytes.
        self.key = marshal.dumps(decides, 2)

    def __eq__(self, other):
        return self.key == other.key

    def __hash__(self):
        return hash(self.key)


# Many changes of one torrent leave its pieces as they are.
@lru_cache(maxsize=64)
def lines_of(by_pieces, folder):
    """What a recheck tells."""
    contents = [content_at(folder, file.path) for file in by_pieces.torrent.files]
    return reference.recheck_lines(reference.marks_of(by_pieces.torrent, contents))


def content_at(folder, path):
    place = folder.joinpath(*(name.decode() for name in path))
    try:
        return place.read_bytes() if place.is_file() else None
    except OSError:
        return None


# The library in place of the program.

def library_in(folder):
    """plovercasket.py of a folder, or of dist/library if it has none, over the library of the folder."""
    os.environ['PLOVERCASKET_LIBRARY'] = os.path.join(folder, 'libplovercasket.so')
    sys.path[:0] = [folder, str(SHIPPED)]
    return importlib.import_module('plovercasket')


def try_by_library(library, texts, begin=lambda text: None, limit=nullcontext):
    """Judges texts by the library: of each the code of the condition that held, or `accepted`. `begin` is called with
    each text first, so that it is known which one ended the process, and all are judged within `limit`."""
    answers = [wanted_of_library(text) for text in texts]
    with limit():
        for text, (_, wanted) in zip(texts, answers):
            begin(text)
            ask_library(library, text, wanted)
    return [code for code, _ in answers]


def ask_library(library, text, wanted):
    for ask, answer in zip((library.check_text, library.magnet, library.info_hashes), wanted):
        came = told_by(ask, text, library.Refused)
        if came != answer:
            raise Departs(f'{ask.__name__} of {text[:300]!r} ({len(text)} bytes)\n'
                          f'wanted  {answer!r:.2000}\ncame    {came!r:.2000}', text)


def wanted_of_library(text):
    """The code, and what the library has to tell: the JSON, the link and the info hashes of a torrent, else three times
    the line of the refusal, which has its number, offset and fault."""
    try:
        torrent = torrent_of(text)
    except Refused as refusal:
        return refusal.code, [refusal.line] * 3
    described = json.dumps(reference.check_record(torrent), sort_keys=True, ensure_ascii=False, separators=(',', ':'))
    hashes = tuple(digits and bytes.fromhex(digits.decode()) for digits in reference.info_hashes(torrent))
    return 'accepted', [described, reference.magnet(torrent).decode().rstrip('\n'), hashes]


def told_by(ask, text, refusal):
    """What a function of the library tells of a text."""
    try:
        return ask(text)
    except refusal as why:
        return str(why)
