"""What is laid at FILE of `--out` while the program works: a link to a file of PATH, or to one outside, or another file.

Each call that asks something of the system is held in turn, from the first look at FILE on, and meanwhile FILE becomes
something else. No other file may change, and if the program says that it is done, FILE is a file with its answer.
"""
import os
from collections import namedtuple

from hostile import BLOCK, OLD
from refuser import ALL_LATER, Meet, Refuser
from support import Failure, run, shown, shown_words

# Files below PATH, and one outside.
FILES = {'d/p': b'p' * 40_000, 'd/q/r': b'r' * 20_000}
OUTSIDE = 'outside'
# What is laid at FILE: its name, and how.
Laid = namedtuple('Laid', 'name lay')


def lay_link(target):
    def lay(place):
        place.unlink(missing_ok=True)
        place.symlink_to(os.path.relpath(target(place.parent.parent), place.parent))
    return lay


def lay_file(place):
    beside = place.with_name('beside')
    beside.write_bytes(b'another')
    os.replace(beside, place)


def lay_name(place):
    place.unlink(missing_ok=True)
    os.link(place.parent.parent / OUTSIDE, place)


LINKS = [Laid('a link to a file of PATH', lay_link(lambda folder: folder / 'd/p')),
         Laid('a link to a file outside', lay_link(lambda folder: folder / OUTSIDE)),
         Laid('another name of a file outside', lay_name)]
FILE_LAID = Laid('another file', lay_file)


def lay_out(folder, has_old):
    """The files as they are to stay, and FILE below a folder of its own."""
    for path, content in [*FILES.items(), (OUTSIDE, b'outside')]:
        (folder / path).parent.mkdir(parents=True, exist_ok=True)
        (folder / path).write_bytes(content)
    place = folder / 'o' / 'x'
    place.parent.mkdir(exist_ok=True)
    place.unlink(missing_ok=True)
    if has_old:
        place.write_bytes(OLD)
    return place


def stays(folder):
    """Whether all files but FILE are as they were."""
    return all((folder / path).read_bytes() == content for path, content in [*FILES.items(), (OUTSIDE, b'outside')])


def commands(program, folder):
    """The words of each command that writes FILE, without it, and whether FILE is replaced by a new file."""
    make = ['--name', 'f', '--piece-length', str(BLOCK), str(folder / 'd')]
    plan, part, torrent = (str(folder / name) for name in ('plan', 'part', 'torrent'))
    lay_out(folder, False)
    for words in (['plan', '--out', plan, *make], ['make', '--plan', plan, '--part', '0/1', '--out', part,
                  str(folder / 'd')], ['make', '--out', torrent, *make]):
        told = run(program, words)
        if told.status:
            raise Failure(f'run     {shown_words(words)}\ncame    {shown(told)}')
    yield ['make', '--span', '1', *make], False
    yield ['make', '--how', 'streams', *make], False
    # The list is read before all else.
    listing = folder / 'listing'
    listing.write_bytes(b'p\0q/r\0')
    yield ['make', '--files-from', str(listing), *make], False
    yield ['make', '--plan', plan, '--part', '0/1', str(folder / 'd')], True
    yield ['plan', *make], True
    yield ['join', plan, part], True
    yield ['edit', '--announce', 'http://t/', torrent], True


def fault_of(folder, place, came, answer, may_stop, laid):
    """What is wrong with how a run ended, if anything is. With some it may be a write fault."""
    if not stays(folder):
        return 'another file was changed'
    is_done = came.status == 0 and not place.is_symlink() and place.read_bytes() == answer
    is_stopped = came.status == 3 and came.err == b'tor: write fault after 0 bytes\n'
    # It may be laid before FILE is compared with the files.
    if laid is LINKS[0] and came.status == 1 and came.err == b'tor: out among files\n':
        return None
    if not is_done and not is_stopped:
        return 'neither done nor a write fault'
    return 'a fault, though nothing could be lost' if is_stopped and not may_stop else None


def sweep(refuser, folder, words, answer, is_replaced, laid, has_old):
    """Lays it there at each call from the first look at FILE to the last: how many there were."""
    place = lay_out(folder, has_old)
    words = [*words, '--out', str(place)]
    told = refuser.run(words, Meet('solrw', 1, ALL_LATER, 'tell')).met
    looks = [number for number, met in enumerate(told, 1) if met.place.endswith('/o/x')]
    first, last = looks[0] + 1, looks[-1]
    opened = max((number for number in looks if told[number - 1].kind == 'o'), default=last)
    for number in range(first, last + 1):
        place = lay_out(folder, has_old)
        came = refuser.run(words, Meet('solrw', number, number, 'hold'), act=lambda met: laid.lay(place))
        # From when FILE is opened on, what is laid there is not what is written into.
        may_stop = not is_replaced and (laid is not FILE_LAID or number >= opened)
        fault = fault_of(folder, place, came, answer, may_stop, laid)
        if fault:
            raise Failure(f'run     {shown_words(words)}\n{laid.name} is laid, {"over an old file, " * has_old}at '
                          f'{came.met}: {fault}\ncame    {came[:3]}')
    return last + 1 - first


def test_a_link_that_is_laid_at_out(program, folder):
    """No link that was not there when the command began is followed, by any command."""
    refuser = Refuser(program, folder)
    for words, is_replaced in commands(program, folder):
        answer = run(program, words).out
        for laid in LINKS:
            for has_old in [False, True]:
                if not sweep(refuser, folder, words, answer, is_replaced, laid, has_old):
                    raise Failure(f'{shown_words(words)} never looks at FILE')


def test_a_file_that_is_laid_at_out(program, folder):
    """A file that comes to FILE meanwhile, and has no other name, is written into, or replaced."""
    refuser = Refuser(program, folder)
    for words, is_replaced in commands(program, folder):
        answer = run(program, words).out
        for has_old in [False, True]:
            sweep(refuser, folder, words, answer, is_replaced, FILE_LAID, has_old)
