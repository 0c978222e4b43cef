"""What the program answers where it is refused memory, threads, or what it asks of the system, or is killed.

Each call of a run is refused in turn by refuser.py. bench/hostile does so with every command; here is what it judges
by, and a part of it that takes seconds.
"""
import os
import re
from collections import namedtuple

import reference
from reference import BLOCK, Order, judge, marks_of, recheck_lines
from refuser import ALL_LATER, Meet, Refuser
from rows import ABC
from support import Failure, expect_equal, refused, shown

# Longer than any torrent here.
OLD = b'old ' * 1000
# Thirteen pieces: more than the lane of two workers has room for.
LONG = bytes(range(250)) * 800
CONTENTS = [((b'a',), b'ab'), ((b'b', b'c'), LONG), ((b'b', b'd'), b''), ((b'e',), b'c')]
# The letters of the files that have some.
LETTERS = {(b'a',): b'hx', (b'b', b'd'): b'x'}
WAYS = [('one', 1), ('halves', 2), ('board', 2), ('streams', 2)]
KINDS = ['v1', 'v2', 'hybrid']

# How a run ends: what it has for a status, prints, and leaves in the file of --out.
Answer = namedtuple('Answer', 'status out err kept')


class Case:
    """A run: its words, the right answer, that of a file at PATH which the system does not tell of, the file that is
    its input, and what the places are that it asks for."""

    def __init__(self, words, right, given=os.devnull, path=None, files=(), torrent=None, out=None, untold=None):
        self.words, self.given, self.path, self.torrent, self.out = [*map(str, words)], str(given), path, torrent, out
        self.numbers = {str(place): number for number, place in enumerate(files)}
        self.is_stream = 'streams' in self.words
        self.is_read_twice = '--check-after' in self.words
        self.untold = untold and self.answer(untold)
        self.right = Answer(right.status, b'' if out else right.out, right.err, OLD if out else None)
        if out and right.status == 0:
            self.right = self.right._replace(kept=right.out)
        if out:
            self.words += ['--out', str(out)]

    def answer(self, told):
        """The same answer, and an old file of --out as it was."""
        return Answer(told.status, told.out, told.err, OLD if self.out else None)

    def lay_out(self):
        if self.out:
            self.out.write_bytes(OLD)

    def came(self, ended):
        return Answer(ended.status, ended.out, ended.err, self.out.read_bytes() if self.out else None)

    def refusal(self, line, status):
        return Answer(status, b'', b'tor: ' + line.encode() + b'\n', OLD if self.out else None)

    def told(self):
        return ' '.join(os.path.basename(word) if word.startswith('/') else word for word in self.words)


# What there is to run.

def lay_out(place):
    """The files that the cases are about."""
    for path, content in CONTENTS:
        target = place / 'folder' / os.fsdecode(b'/'.join(path))
        target.parent.mkdir(parents=True, exist_ok=True)
        target.write_bytes(content)
    (place / 'file').write_bytes(LONG)
    for kind in KINDS:
        (place / f'{kind}.torrent').write_bytes(torrent_of(kind, False))
        (place / f'{kind}-file.torrent').write_bytes(torrent_of(kind, True))
    (place / 'attrs').write_bytes(b'x b/d\nhx a\n')
    (place / 'no.torrent').write_bytes(torrent_of('v2', True)[:-1])
    (place / 'proof').write_bytes(reference.prove(judge(torrent_of('v2', True)), 0, 1))


def torrent_of(kind, single, letters=None):
    contents = [((b'f',), LONG)] if single else CONTENTS
    return reference.make(contents, Order(kind, single, b'f', BLOCK, None, False, 'one', 1, 1), letters)


def content_of(place, single):
    """PATH, and the files in their order."""
    if single:
        return place / 'file', [place / 'file']
    return place / 'folder', [place / 'folder' / os.fsdecode(b'/'.join(path)) for path, _ in CONTENTS]


def make_case(place, kind, way, single, out):
    path, files = content_of(place, single)
    words = ['make', '--name', 'f', '--kind', kind, '--piece-length', BLOCK, '--span', 1, '--how', way[0],
             '--workers', way[1], path]
    return Case(words, right_of(torrent_of(kind, single)), path=path, files=files, out=out)


def attrs_case(place, kind, way, out):
    """The same of a folder some of whose files have letters. What has them is read as a torrent is."""
    made = make_case(place, kind, way, False, None)
    path, files = content_of(place, False)
    attrs = place / 'attrs'
    return Case([*made.words, '--attrs', attrs], right_of(torrent_of(kind, False, LETTERS)), path=path, files=files,
                torrent=attrs, out=out)


def after_case(place, kind, way, single, out):
    """The same, of files that are looked at once more."""
    made = make_case(place, kind, way, single, None)
    path, files = content_of(place, single)
    untold = None
    if single:
        untold = refused(f'not as made: 0 of {len(marks_of(judge(torrent_of(kind, True)), [None]))} pieces')
    return Case([*made.words, '--check-after'], made.right, path=path, files=files, out=out, untold=untold)


def input_case(place, kind, out):
    words = ['make', '--name', 'f', '--kind', kind, '--piece-length', BLOCK]
    return Case(words, right_of(torrent_of(kind, True)), given=place / 'file', out=out)


def right_of(out, status=0):
    return Answer(status, out, b'', None)


def make_cases(place):
    for out in [None, place / 'out']:
        for kind in KINDS:
            yield input_case(place, kind, out)
            for way in WAYS:
                yield make_case(place, kind, way, False, out)
                yield make_case(place, kind, way, True, out)
        for kind, way in [('v1', ('streams', 2)), ('hybrid', ('board', 2))]:
            yield after_case(place, kind, way, False, out)
            yield after_case(place, kind, way, True, out)
            yield attrs_case(place, kind, way, out)
        words = ['make', '--name', 'f', '--span', 3]
        yield Case(words, refused('M3 Span'), given=place / 'file', out=out)
        yield Case([*words, place / 'folder'], refused('M3 Span'), path=place / 'folder', out=out)


def recheck_case(place, kind, single):
    path, files = content_of(place, single)
    torrent = place / (f'{kind}-file.torrent' if single else f'{kind}.torrent')
    contents = [LONG] if single else [content for _, content in CONTENTS]
    view = judge(torrent.read_bytes())
    untold = right_of(recheck_lines(marks_of(view, [None])), 1) if single else None
    return Case(['recheck', torrent, path], right_of(recheck_lines(marks_of(view, contents))), path=path, files=files,
                torrent=torrent, untold=untold)


def torrent_cases(place):
    for kind in KINDS:
        torrent = place / f'{kind}.torrent'
        view = judge(torrent.read_bytes())
        yield Case(['check', torrent], right_of(reference.check_lines(view)), torrent=torrent)
        yield Case(['magnet', torrent], right_of(reference.magnet(view)), torrent=torrent)
        if kind != 'v1':
            yield Case(['prove', torrent, 1, 2], right_of(reference.prove(view, 1, 2)), torrent=torrent)
        yield recheck_case(place, kind, False)
        yield recheck_case(place, kind, True)
    torrent = place / 'no.torrent'
    yield Case(['check', torrent], refused(f'V1 Bencode B1 Truncated at {torrent.stat().st_size}'), torrent=torrent)
    root = reference.root_of(reference.leaves(LONG)).hex()
    for length, right in [(len(LONG), right_of(b'yes\n')), (2 * BLOCK, right_of(b'no\n', 1))]:
        yield Case(['verify', root, length, BLOCK, place / 'proof'], right, torrent=place / 'proof')


def other_cases(place):
    """Words that are refused or only shown, and as many workers as there may be."""
    given = place / 'file'
    yield Case(['make', '--name', '..'], refused('N3 DotDot'), given=given)
    yield Case(['make', '--foo'], refused("unexpected argument '--foo'; see 'tor make --help'", 2), given=given)
    yield Case(['--version'], right_of(b'tor 1.2.0\n'))
    for how in ['halves', 'board', 'streams']:
        yield make_case(place, 'v2', (how, 64), False, None)


# What is right where calls are refused.

def fault_of(case, kinds, ended):
    """What is wrong with how a run ended some of whose calls were refused; None where nothing is."""
    came = case.came(ended)
    if 'm' in kinds or 't' in kinds:
        is_right = came == case.right or (came == case.refusal('out of resources', 4)
                                          and ('m' in kinds or case.is_stream))
    elif 'w' in kinds:
        is_right = is_cut(case, came, ended.met)
    else:
        is_right = (any(is_told(case, met, came) for met in ended.met) or is_passed_over(case, ended.met, came)
                    or is_of_opened_out(case, ended.met, came))
    return None if is_right else f'{difference(case, came)}\nrefused {ended.met[:9]}'


def difference(case, came):
    return f'run     {case.told()}\nwanted  {answer_shown(case.right)}\ncame    {answer_shown(came)}'


def answer_shown(answer):
    kept = '' if answer.kept is None else f'\n  --out has {len(answer.kept)} bytes: {answer.kept[:20]!r} ..'
    return shown(answer) + kept


def is_told(case, met, came):
    """Whether what came names this call, and nothing was written."""
    return any(re.fullmatch(re.escape(b'tor: ') + line + b'\n', came.err) for line in lines_of(case, met)) \
        and came == Answer(3, b'', came.err, OLD if case.out else None)


def is_passed_over(case, met, came):
    """Whether one question was left without an answer that may be. If the system does not tell what PATH is, the files
    are looked for below it: of a folder it is asked again what it is, and a file has none below it. If it does not tell
    which file FILE of --out is, however often it is asked, no file is there that could be lost."""
    if all(one.kind == 's' and one.place == str(case.out) for one in met):
        return came == case.right
    if len(met) > 1:
        return False
    if met[0].kind in 'or' and is_empty_file(met[0].place):
        return came == case.right
    if met[0].kind != 's':
        return False
    if met[0].place == str(case.path) and not os.path.isdir(case.path) and came == case.untold:
        return True
    return met[0].place in (str(case.path), str(case.out)) and came == case.right


def is_of_opened_out(case, met, came):
    """Whether the system did not tell what FILE of --out is once it was opened, or written: what went into it stays."""
    return (case.out and all(one.kind == 's' and one.place == str(case.out) for one in met)
            and came[:3] == (3, b'', b'tor: write fault after 0 bytes\n') and came.kept in (OLD, b'', case.right.kept))


def is_empty_file(place):
    """Of a file that tells of no byte one is asked for; if it is not read it has none, as the system told."""
    return os.path.isfile(place) and os.path.getsize(place) == 0


def lines_of(case, met):
    """What may be told of a call that was refused."""
    place = met.place.rstrip('/')
    number = case.numbers.get(place)
    if place == str(case.out):
        return [b'write fault after 0 bytes']
    if place in (case.given, str(case.torrent)):
        return [b'read fault']
    lines = [] if case.words[0] == 'recheck' or met.kind == 'r' else [b'F4 System']
    if number is not None:
        lines += [b'%s Read file %d at %s' % (code, number, starts) for code, starts in codes_of(case, met)]
    return lines


def codes_of(case, met):
    """The codes of a file that is not read, and where."""
    starts = b'%d' % met.offset if met.kind == 'r' else rb'(length|[0-9]+)'
    codes = [(b'E1', b'0' if case.is_stream and met.kind != 'r' else starts), (b'C1', starts)]
    return codes[1:] if case.words[0] == 'recheck' else codes if case.is_read_twice else codes[:1]


def is_cut(case, came, met):
    """Whether a front was written whose length is told; on standard error a front of a line may be."""
    if not all(one.file == 2 for one in met):
        whole, front = (case.right.kept, came.kept) if case.out else (case.right.out, came.out)
        line = b'tor: write fault after %d bytes\n' % len(front)
        is_front = len(front) < len(whole) and whole.startswith(front) and not (case.out and came.out)
        return came.status == 3 and is_front and (came.err == line or (len(met) > 1 and line.startswith(came.err)))
    return came._replace(err=b'') == case.right._replace(err=b'') and case.right.err.startswith(came.err)


def fault_of_killed(case, ended, refuser, fronts):
    """What is wrong with what a killed run left; a front of a torrent is none. `fronts` has those that were judged."""
    came = case.came(ended)
    whole = case.right.kept if case.out else case.right.out
    left = came.kept if case.out else came.out
    is_right = came.status == -9 and case.right.err.startswith(came.err) and (left == OLD or whole.startswith(left))
    if is_right and case.out and left not in (OLD, whole) and left not in fronts:
        fronts.add(left)
        told = refuser.run(['check', str(case.out)])
        is_right = (told.status, told.out, told.err) == refused(f'V1 Bencode B1 Truncated at {len(left)}')
    return None if is_right else f'{difference(case, came)}\nkilled  {ended.met}'


def sweep(refuser, case, kinds, follow=False):
    """Refuses each call of these kinds in turn, with all that follow where it is asked for: how many runs there were,
    and how many did not end as they do with nothing refused."""
    meet = Meet(kinds, last=ALL_LATER if follow else 0, most=16 if 'w' in kinds else 0)
    count = named = 0
    for ended in refuser.each(case.words, meet, case.given, before=case.lay_out):
        count += 1
        named += case.came(ended) != case.right
        fault = fault_of(case, kinds, ended)
        if fault:
            raise Failure(fault)
    expect_right(refuser, case)
    return count, named


def expect_right(refuser, case):
    """With nothing refused it ends as it has to."""
    case.lay_out()
    came = case.came(refuser.run(case.words, given=case.given))
    if came != case.right:
        raise Failure(difference(case, came))


def sweep_killed(refuser, case):
    """Kills the run at each of its calls in turn: how many there were."""
    count, fronts = 0, set()
    for ended in refuser.each(case.words, Meet('mtsolrw', does='kill', most=16), case.given, before=case.lay_out):
        count += 1
        fault = fault_of_killed(case, ended, refuser, fronts)
        if fault:
            raise Failure(fault)
    return count


def test_memory_in_turn(program, folder):
    """Each request for memory is refused in turn: of a hybrid that is judged, made each way, and rechecked."""
    lay_out(folder)
    refuser = Refuser(program, folder)
    torrent = folder / 'hybrid.torrent'
    check = Case(['check', torrent], right_of(reference.check_lines(judge(torrent.read_bytes()))), torrent=torrent)
    made = [make_case(folder, 'hybrid', way, False, None) for way in WAYS]
    lettered = attrs_case(folder, 'hybrid', WAYS[0], None)
    for case in [check, recheck_case(folder, 'hybrid', False), *made, lettered]:
        sweep(refuser, case, 'm')


def test_memory_before_a_fault_of_a_stream(program, folder):
    """The last of the files cannot be read, and each request for memory is refused in turn: where it is one of the
    worker, want of memory is told and not that fault; where the thread that reads is refused, either is."""
    lay_out(folder)
    refuser = Refuser(program, folder)
    for kind in KINDS:
        case = make_case(folder, kind, ('streams', 1), False, None)
        case.right = case.refusal('E1 Read file 3 at 0', 3)
        wanting = case.refusal('out of resources', 4)
        allowed = {'none': [case.right], 'first': [case.right, wanting], 'later': [wanting]}
        meet, asked = Meet('m', broken=str(folder / 'folder' / 'e')), set()
        for ended in [refuser.run(case.words, meet), *refuser.each(case.words, meet)]:
            thread = ended.met[0].place if ended.met else 'none'
            asked.add(thread)
            if case.came(ended) not in allowed[thread]:
                raise Failure(f'{difference(case, case.came(ended))}\nrefused {ended.met}')
        if asked != set(allowed):
            raise Failure(f'run     {case.told()}\nrefused in these threads alone: {asked}')


def test_of_files_that_are_looked_at_once_more(program, folder):
    """Each call upon the files is refused in turn, and each thread; and upon a file of letters."""
    lay_out(folder)
    refuser = Refuser(program, folder)
    for case in [after_case(folder, 'v1', ('streams', 2), False, folder / 'out'),
                 after_case(folder, 'hybrid', ('board', 2), True, None),
                 attrs_case(folder, 'v2', ('board', 2), folder / 'out')]:
        for kinds in 'solrt':
            sweep(refuser, case, kinds)


def test_killed_while_it_writes(program, folder):
    """What --out has is the old file, or a front of the torrent."""
    lay_out(folder)
    refuser = Refuser(program, folder)
    sweep_killed(refuser, input_case(folder, 'v2', folder / 'out'))


def test_writes_of_few_bytes(program, folder):
    """A torrent goes out byte by byte as it does at once. If a write after twelve bytes fails, or takes none, the line
    says twelve."""
    abc = folder / 'abc'
    abc.write_bytes(b'abc')
    refuser, words = Refuser(program, folder), ['make', '--name', 'a', '--piece-length', '16384']
    twelve = Meet('w', first=2, last=2, most=12)
    stopped = 3, ABC[:12], b'tor: write fault after 12 bytes\n'
    for meet, wanted in [(Meet(most=1), (0, ABC, b'')), (twelve, stopped), (twelve._replace(error=0), stopped)]:
        ended = refuser.run(words, meet, given=str(abc))
        expect_equal(f'{words} with {meet}', wanted, (ended.status, ended.out, ended.err))
