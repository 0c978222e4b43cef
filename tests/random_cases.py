"""Random cases: folders made and rechecked, foreign torrents judged, proofs of pieces, each against the reference.

A case comes from its number alone, which is told where it fails: tests/run --case NUMBER tries no other.
"""
import json
import os
import random
import re
import shutil
import time
import traceback

import reference
from again import Again
from foreign import wanted_lines
from reference import BLOCK, Order, Refused, decode, encode, judge, make
from support import Failure, Skipped, Told, done, expect, expect_equal, refused, run

NAMES = ['a', 'b', 'c', 'A', 'a-b', 'a b', ' a ', '-x', '.a', '...', 'é', '中文', '\n', 'x\ty', '\x7f', 'a\\b', '𝄞',
         '\x1b[0m', 'a.', '%', '\u00c5', 'A\u030a', 'z' * 255, '\u00ff', '~', '*', '"', "'", '0', '00', '10', '9',
         'pad', 'piece layers']
KINDS = ['v1', 'v2', 'hybrid']
HOWS = ['one', 'halves', 'board', 'streams']
# The longest unit of a stream that is not refused.
MOST_HELD = 1 << 25


def run_cases(program, folder, seed, seconds):
    """Tries cases until so many seconds have gone by, and at least one: how many passed, and what failed."""
    end, number, passed, failures = time.monotonic() + seconds, 0, 0, []
    while len(failures) < 5:
        case = f'{seed}.{number}'
        number += 1
        failure = failure_of(program, folder, case)
        passed, failures = (passed, failures + [failure]) if failure else (passed + 1, failures)
        if time.monotonic() >= end:
            break
    return passed, failures


def failure_of(program, folder, case):
    place = folder / 'case'
    place.mkdir()
    rng = random.Random(case)
    kind = rng.choices([case_of_path, case_of_input, case_of_foreign, case_of_bytes, case_of_proof, case_of_changed],
                       [10, 3, 12, 4, 2, 2])[0]
    try:
        kind(rng, program, place)
        return None
    except Skipped:
        return None
    except Failure as failure:
        return f'case {case}, {kind.__name__}\n{failure}'
    except Exception:
        return f'case {case}, {kind.__name__}\n{traceback.format_exc()}'
    finally:
        shutil.rmtree(place)


# What a torrent is made of.

def random_name(rng):
    if rng.random() < 0.6:
        return rng.choice(NAMES).encode()
    letters = rng.choice(['abc', 'aé中𝄞\u0080', 'ab\\ \n\x7f-.'])
    name = ''.join(rng.choice(letters) for _ in range(rng.randint(1, 12))).encode()
    return name if name not in (b'.', b'..') else b'dot'


def shortened(name, most):
    return name[:most].decode(errors='ignore').encode()


def random_paths(rng, count):
    """Paths of which none begins another."""
    folders, paths, taken = [()], set(), set()
    for _ in range(count * 3):
        if len(paths) == count:
            break
        path = rng.choice(folders) + (random_name(rng),)
        if rng.random() < 0.05:
            path += tuple(shortened(random_name(rng), 20) for _ in range(rng.randint(1, 20)))
        if len(path) > 60 or sum(map(len, path)) > 1500:
            continue
        if count > 100:
            path = path[:-1] + (shortened(path[-1], 200) + b'%d' % rng.randrange(10 * count),)
        above = {path[:i] for i in range(1, len(path))}
        if path in taken or path in paths or any(front in paths for front in above):
            continue
        paths.add(path)
        taken |= above
        if above and rng.random() < 0.5:
            folders.append(path[:-1])
        elif len(folders) < 40 and rng.random() < 0.3:
            front = rng.choice(folders) + (random_name(rng),)
            if front not in paths and not any(front[:i] in paths for i in range(1, len(front))):
                folders.append(front)
                taken |= {front[:i] for i in range(1, len(front) + 1)}
    return sorted(paths)


def random_length(rng, piece_length, most):
    around = rng.choice([0, 0, 1, BLOCK, BLOCK * 8, piece_length, piece_length * rng.randint(1, 20), 1 << 20])
    length = around + rng.choice([-1, 0, 0, 1, rng.randint(-BLOCK, BLOCK), rng.randint(0, 3000)])
    return max(0, min(length, most))


def random_content(rng, length, before):
    """Random bytes; now and then zeros, one block again and again, or what another file has."""
    way = rng.random()
    if way < 0.1:
        return bytes(length)
    if way < 0.2:
        return (rng.randbytes(BLOCK) * (length // BLOCK + 1))[:length]
    if way < 0.3 and before:
        return rng.choice(before)
    return rng.randbytes(length)


def random_files(rng, piece_length):
    size = rng.random()
    count = 1 if size < 0.15 else rng.randint(0, 12) if size < 0.9 else rng.randint(13, 300)
    if rng.random() < 0.01:
        count = rng.randint(300, 3000)
    budget = rng.choice([1 << 16, 1 << 19, 1 << 21])
    if rng.random() < 0.02:
        budget = 1 << 26
    contents = []
    paths = random_paths(rng, count)
    for _ in paths:
        most = budget if count < 20 else min(budget, 1 << 16 if count < 300 else 500)
        content = random_content(rng, random_length(rng, piece_length, most), contents)
        if len(content) > budget:
            content = content[:budget]
        budget -= len(content)
        contents.append(content)
    return list(zip(paths, contents))


def random_piece_length(rng):
    return BLOCK << rng.choice([0, 0, 0, 1, 1, 2, 3, 4, 5, 6, 7, 16])


def random_order(rng, single):
    """An order, mostly a lawful one."""
    name = random_name(rng)
    piece_length, span, workers = random_piece_length(rng), 1 << rng.choice([0, 0, 1, 2, 4, 7, 10]), rng.randint(1, 64)
    if rng.random() < 0.08:
        name = rng.choice([b'', b'.', b'..', b'a/b', b'/'])
    if rng.random() < 0.04:
        piece_length = rng.choice([0, 1, 8192, 16383, 16385, 49152, 1 << 31, 1 << 40, (1 << 64) - 1, (1 << 32) + BLOCK])
    if rng.random() < 0.04:
        workers = rng.choice([0, 65, 100, (1 << 32) - 1])
    if rng.random() < 0.04:
        span = rng.choice([0, 3, 1025, 2048, (1 << 32) - 1])
    kind, how = rng.choice(KINDS), rng.choice(HOWS)
    if kind == 'hybrid' and not single and piece_length == 1 << 30:
        # Each file would have padding of a GiB.
        piece_length = 1 << 22
    if how == 'streams' and MOST_HELD < span * piece_length <= reference.MAX_UNIT_LENGTH:
        # Units are held whole, and several cases run side by side.
        piece_length, span = BLOCK, 1024
    announce = rng.choice([None, None, b'', b'http://t/', 'http://ü/ a'.encode(), b'x' * 3000])
    return Order(kind, single, name, piece_length, announce, rng.random() < 0.3, how, workers, span,
                 rng.random() < 0.3)


def words_of(rng, order, *arguments):
    """The words that ask for an order, in any order of theirs; what is the default may be left out."""
    given = [('name', order.name, None), ('piece-length', b'%d' % order.piece_length, b'262144'),
             ('kind', order.kind.encode(), b'v2'), ('how', order.how.encode(), b'one'),
             ('workers', b'%d' % order.workers, b'1'), ('span', b'%d' % order.span, b'16')]
    if order.announce is not None:
        given.append(('announce', order.announce, None))
    words = [[argument] for argument in arguments]
    for option, value, default in given:
        if value == default and rng.random() < 0.5:
            continue
        if value.startswith(b'-') or rng.random() < 0.5:
            words.append([b'--' + option.encode() + b'=' + value])
        else:
            words.append([b'--' + option.encode(), value])
    if order.is_private:
        words.append([b'--private'])
    if order.tail:
        words.append([b'--tail'])
    rng.shuffle(words)
    return [b'make'] + [word for pair in words for word in pair]


def lay_out(place, files):
    place.mkdir()
    top = os.fsencode(place)
    for path, content in files:
        folder = os.path.join(top, *path[:-1])
        os.makedirs(folder, exist_ok=True)
        with open(os.path.join(folder, path[-1]), 'wb') as file:
            file.write(content)


def random_letters(rng, paths):
    """The text of a file of letters, mostly one for these paths; None where there is none."""
    if rng.random() < 0.6:
        return None
    named = [path for path in paths if b'\n' not in b''.join(path)]
    lines = [rng.choice([b'x', b'h', b'hx']) + b' ' + b'/'.join(path)
             for path in rng.sample(named, rng.randint(0, len(named)))]
    if rng.random() < 0.1:
        lines.insert(rng.randint(0, len(lines)), rng.choice(
            [b'', b'x', b'x ', b'xh a', b'x no such file', b'x ..', b'x a/../a', b'l a', b'x\xff', *lines[:1]]))
    text = b''.join(line + b'\n' for line in lines)
    return text[:-1] if rng.random() < 0.02 else text


def made(files, order, text=None):
    """What comes of files whose letters are in a text, if there is one. It is read once the paths are known, and the
    rest is judged after it."""
    letters = None
    if text is not None and not reference.name_fault(order.name):
        letters = reference.letters_in(text, {path for path, _ in files})
        if letters is None:
            return refused('bad attrs')
    try:
        return done(make(files, order, letters))
    except Refused as refusal:
        return refused(refusal.line)


def attrs_words(place, text):
    """The words that name a file of letters, if there is one."""
    if text is None:
        return []
    (place / 'attrs').write_bytes(text)
    return [b'--attrs=' + os.fsencode(place / 'attrs')]


# The kinds of cases.

def case_of_path(rng, program, place):
    """A file or a folder is made into a torrent, by which it is then rechecked, whole and damaged."""
    order = random_order(rng, rng.random() < 0.25)
    files = random_files(rng, order.piece_length if order.piece_length < 1 << 21 else BLOCK)
    content = place / 'content'
    if order.single:
        data = files[0][1] if files else b''
        files = [((order.name,), data)]
        content.write_bytes(data)
    else:
        lay_out(content, files)
        for _ in range(rng.choice([0, 0, 0, 1, 3])):
            (content / f'no file {rng.randrange(9)}' / 'below').mkdir(parents=True, exist_ok=True)
    text = random_letters(rng, [path for path, _ in files])
    wanted = made(files, order, text)
    # Of files that stay as they are it changes nothing.
    words = words_of(rng, order, os.fsencode(content), *attrs_words(place, text),
                     *[b'--check-after'] * (rng.random() < 0.3))
    torrent = make_out(rng, program, place, words, wanted, b'not read')
    if torrent is not None:
        tell(rng, program, place, torrent)
        recheck(rng, program, place, torrent, [data for _, data in sorted(files)], content, order.single)


def make_out(rng, program, place, words, wanted, data):
    """Makes a torrent, on standard output or in a file; None where it is refused, and an old file stays."""
    out = place / 'out'
    if rng.random() < 0.5:
        expect(program, words, wanted, data)
    else:
        old = rng.choice([None, b'', b'o' * 100_000])
        if old is not None:
            out.write_bytes(old)
        expect(program, [words[0], '--out', str(out), *words[1:]], Told(wanted.status, b'', wanted.err), data)
        came = out.read_bytes() if out.exists() else None
        expect_equal('what --out has', old if wanted.status else wanted.out, came)
    return wanted.out if wanted.status == 0 else None


def case_of_input(rng, program, place):
    """Standard input is made into a torrent."""
    order = random_order(rng, True)
    data = random_content(rng, random_length(rng, min(order.piece_length, 1 << 20), 5 << 20), [])
    text = random_letters(rng, [(order.name,)])
    wanted = made([((order.name,), data)], order, text)
    torrent = make_out(rng, program, place, words_of(rng, order, *attrs_words(place, text)), wanted, data)
    if torrent is not None:
        tell(rng, program, place, torrent)


def tell(rng, program, place, text):
    """`check`, `magnet`, and a proof of some piece."""
    file = place / 'torrent'
    file.write_bytes(text)
    wanted = wanted_lines(text)
    expect(program, ['check', str(file)], wanted)
    if wanted.status == 0:
        expect_record(program, ['check', '--json', str(file)], reference.check_record(judge(text)))
    else:
        expect(program, ['check', '--json', str(file)], wanted)
    expect(program, ['magnet', str(file)], wanted_lines(text, 'magnet'))
    number = rng.randrange(4)
    index = rng.choice([0, 0, 1, 2, 3, rng.randrange(40)])
    try:
        wanted = done(reference.prove(judge(text), number, index))
    except Refused as refusal:
        wanted = refused(refusal.line)
    expect(program, ['prove', str(file), str(number), str(index)], wanted)


def recheck(rng, program, place, text, contents, content, single):
    """Rechecks files that are whole, and then damaged."""
    torrent = judge(text)
    file = place / 'torrent'
    file.write_bytes(text)
    expect_found(rng, program, file, content, torrent, contents)
    paths = [None] if single else [os.path.join(os.fsencode(content), *file.path)
                                   for file in torrent.files]
    contents = list(contents)
    for _ in range(rng.randint(1, 3)):
        i = rng.randrange(len(paths))
        contents[i] = damage(rng, os.fsencode(content) if single else paths[i], contents[i])
    expect_found(rng, program, file, content, torrent, contents)


def expect_found(rng, program, file, content, torrent, contents):
    """The pieces that are told, and with some options the files; by some number of workers."""
    marks = reference.marks_of(torrent, contents)
    status, lines = 0 if all(marks) else 1, reference.recheck_lines(marks)
    found = reference.files_found(torrent, contents)
    bad = reference.not_whole(found)
    options, out = rng.choice([([], lines), (['--files'], lines + reference.found_lines(found)),
                               (['--bad'], lines + reference.found_lines(bad)),
                               (['--bad', '--null'], reference.ended_paths(file.path for file in bad))])
    workers = rng.choice([[], [], ['--workers', str(rng.randint(1, 64))], ['--workers', 'auto']])
    expect(program, ['recheck', *options, *workers, str(file), str(content)], done(out, status))
    options, files = rng.choice([([], None), (['--files'], found), (['--bad'], bad)])
    expect_record(program, ['recheck', '--json', *options, str(file), str(content)],
                  reference.recheck_record(torrent, marks, files), status)


def expect_record(program, words, wanted, status=0):
    """One object on one line, without a space."""
    told = run(program, words)
    try:
        came = json.loads(told.out)
    except ValueError as error:
        raise Failure(f'run     {words}\nwanted  JSON\ncame    {told}: {error}') from None
    expect_equal(f'{words}', (status, b'', wanted), (told.status, told.err, came))
    bare = re.sub(rb'"(?:[^"\\]|\\.)*"', b'""', told.out)
    expect_equal(f'{words}: a line without a space', (1, False), (told.out.count(b'\n'), b' ' in bare))
    expect_equal(f'{words}: the names rise', True, list(came) == sorted(came))


def damage(rng, path, content):
    """Changes what stands at a file's place, and answers its content then."""
    way = rng.choice(['gone', 'shorter', 'longer', 'turned', 'folder', 'fifo', 'link'])
    if content is None:
        return None
    os.remove(path)
    if way == 'gone':
        return None
    if way in ('folder', 'fifo'):
        (os.mkdir if way == 'folder' else os.mkfifo)(path)
        return None
    if way == 'link':
        target = path + b'.kept' if len(os.path.basename(path)) < 240 else os.path.dirname(path) + b'/kept'
        with open(target, 'wb') as file:
            file.write(content)
        os.symlink(target, path)
        return content
    if way == 'shorter':
        content = content[:rng.randrange(len(content) + 1)]
    elif way == 'longer':
        content += rng.randbytes(rng.randint(1, 20000))
    elif content:
        at = rng.randrange(len(content))
        content = content[:at] + bytes([content[at] ^ (1 << rng.randrange(8))]) + content[at + 1:]
    with open(path, 'wb') as file:
        file.write(content)
    return content


# Foreign torrents.

def case_of_foreign(rng, program, place):
    """A torrent as other makers write it, rechecked; and the same with some places changed, judged."""
    root, contents, order = random_foreign(rng)
    text = encode(root)
    torrent = judge_or_fail(text)
    tell(rng, program, place, text)
    content = place / 'content'
    files = [(file.path, data) for file, data in zip(torrent.files, contents)]
    if order.single:
        content.write_bytes(contents[0])
    else:
        lay_out(content, files)
    recheck(rng, program, place, text, contents, content, order.single)
    for _ in range(6):
        changed = decode(text)
        for _ in range(rng.choice([1, 1, 1, 2, 3])):
            change(rng, changed)
        file = place / 'torrent'
        file.write_bytes(encode(changed))
        command = rng.choice(['check', 'check', 'magnet'])
        expect(program, [command, str(file)], wanted_lines(encode(changed), command), note=f'{changed!r:.2000}\n')


def judge_or_fail(text):
    try:
        return judge(text)
    except Refused as refusal:
        raise Failure(f'the reference refuses a lawful torrent: {refusal.line}\n{text[:2000]!r}') from None


def random_foreign(rng):
    """A lawful torrent with whatever is read leniently, its contents in its order, and its order."""
    piece_length = BLOCK << rng.choice([0, 0, 1, 3])
    order = Order(rng.choice(KINDS), rng.random() < 0.2, b'n', piece_length, None, False, 'one', 1, 16)
    files = [(path, data[:200_000]) for path, data in random_files(rng, order.piece_length)[:60]]
    files = files or [((b'a',), b'abc')]
    if order.single:
        files = [((b'n',), files[0][1])]
    files = [(path, data) for path, data in files if order.kind != 'hybrid' or path[0] != b'.pad'] or [((b'a',), b'')]
    root = decode(make(files, order))
    contents = [data for _, data in sorted(files)]
    if order.kind == 'v1':
        contents = loosen_list(rng, root[b'info'], files, order)
    elif order.kind == 'hybrid' and not order.single:
        loosen_padding(rng, root[b'info'], order.piece_length)
    if order.kind != 'v1':
        loosen_tree(rng, root)
    for place in (root, root[b'info']):
        keys = [b'comment', b'creation date', b'zz', b'aa', b'source', b'name.utf-8']
        for key in rng.sample(keys, rng.randint(0, 3)):
            place[key] = rng.choice([1, b'x', [], {b'': []}])
    return root, contents, order


def loosen_list(rng, info, files, order):
    """Version 1: any piece length, files in any order, padding anywhere."""
    p = rng.choice([1, 2, 7, 1000, BLOCK, BLOCK + 1, 100_000, 1 << 20, 1 << 30])
    total = sum(len(data) for _, data in files)
    p = p if total // p < 20_000 else 1000
    files = list(files)
    rng.shuffle(files)
    entries, joined = [], []
    for path, data in files:
        attr = rng.choice([{}, {}, {b'attr': rng.choice([b'x', b'h', b'', b'q'])}])
        entries.append({b'length': len(data), b'path': list(path), **attr})
        joined.append(data)
        if rng.random() < 0.3 and not order.single:
            length = rng.choice([0, 1, min(p, 1 << 21), min(p - 1, 1 << 20), rng.randrange(50_000),
                                 rng.randrange(1 << 21)])
            length = length if length // p < 20_000 else 0
            entries.append({b'length': length, b'attr': rng.choice([b'p', b'xp']),
                            **rng.choice([{}, {b'path': 3}, {b'path': [b'.pad', b'9']}])})
            joined.append(bytes(length))
    whole = b''.join(joined)
    info[b'piece length'] = p
    info[b'pieces'] = b''.join(reference.sha1(whole[at:at + p]) for at in range(0, len(whole), p))
    if not order.single:
        info[b'files'] = entries
    return [data for _, data in files]


def loosen_padding(rng, info, p):
    """Hybrids: padding cut, moved among empty files, of no byte, without a path; and perhaps after the last file."""
    entries = []
    for entry in info[b'files']:
        if b'attr' not in entry:
            entries.append(entry)
            continue
        cut = rng.choice([0, entry[b'length'], rng.randint(0, entry[b'length'])])
        for length in (cut, entry[b'length'] - cut):
            entries.append({b'attr': rng.choice([b'p', b'px']), b'length': length,
                            **rng.choice([{}, {b'path': b''}, {b'path': [b'x']}])})
    lengths = [entry[b'length'] for entry in entries if b'p' not in entry.get(b'attr', b'')]
    last = next((length for length in reversed(lengths) if length), 0)
    lacking = reference.rounded(last, p) - last
    if lacking and rng.random() < 0.5:
        entries.append({b'attr': b'p', b'length': lacking})
        # The last piece then ends in zeros, which changes its hash: whatever stands there is a torrent.
        info[b'pieces'] = info[b'pieces'][:-20] + rng.randbytes(20)
    info[b'files'] = entries


def loosen_tree(rng, root):
    tree = root[b'info'][b'file tree']
    torrent = reference.Torrent(root)
    for _, properties in torrent.tree_files:
        if rng.random() < 0.2:
            properties[b'attr'] = rng.choice([b'x', b'h', b'hx', b'p', b''])
        if rng.random() < 0.1:
            properties[b'mtime'] = 5
        if properties[b'length'] == 0 and rng.random() < 0.5:
            properties[b'pieces root'] = rng.choice([b'', 7, bytes(32)])
    if b'files' in root[b'info'] and torrent.kind == 'hybrid':
        loosen_letters(rng, torrent)
    if rng.random() < 0.3:
        tree.setdefault(b'empty folder', {b'below': {}})
    if rng.random() < 0.3:
        root[b'piece layers'][rng.randbytes(32)] = rng.choice([b'', 3, b'x' * 64])
    if rng.random() < 0.3 and not torrent.long_files:
        del root[b'piece layers']


def loosen_letters(rng, torrent):
    """Hybrids: the letters of a file in the list too, where the tree has some the same, in another order."""
    listed = [entry for entry in torrent.info[b'files'] if b'p' not in entry.get(b'attr', b'')]
    for entry, (_, properties) in zip(listed, torrent.tree_files):
        if rng.random() < 0.3:
            letters = [letter for letter in properties.get(b'attr', rng.choice([b'x', b'hx', b''])) if letter in b'xh']
            rng.shuffle(letters)
            entry[b'attr'] = bytes(letters) + rng.choice([b'', b'z'])


KEYS = [b'', b'info', b'files', b'length', b'name', b'pieces', b'piece length', b'meta version', b'file tree', b'attr',
        b'path', b'pieces root', b'piece layers', b'private', b'.', b'..', b'a/b', b'zz']


def change(rng, root):
    """Changes one place: a value for another, a key gone or put in, items of a list moved, lost or doubled."""
    places = []
    collect(root, places)
    if not places:
        return
    holder, key = rng.choice(places)
    way = rng.random()
    if way < 0.2:
        del holder[key]
    elif way < 0.3 and isinstance(holder, dict):
        holder[rng.choice(KEYS)] = random_item(rng)
    elif way < 0.4 and isinstance(holder, list):
        holder.insert(rng.randrange(len(holder) + 1), rng.choice([holder[key], random_item(rng)]))
    elif way < 0.5 and isinstance(holder, list):
        rng.shuffle(holder)
    elif way < 0.6:
        holder[key] = random_item(rng)
    else:
        holder[key] = near(rng, holder[key])


def collect(item, places):
    """Puts into a list each place below a list or a dictionary: what holds it, and its key there."""
    for key, value in item.items() if isinstance(item, dict) else enumerate(item):
        places.append((item, key))
        if isinstance(value, (dict, list)):
            collect(value, places)


def random_item(rng):
    return rng.choice([0, 1, 2, -1, 1 << 50, (1 << 50) + 1, b'', b'p', b'l', b'a', b'..', [], [b'a'], {},
                       {b'': {b'length': 0}}, {b'length': 1, b'path': [b'new']}, {b'attr': b'p', b'length': 16384},
                       {b'a': {b'': {b'length': 0}}}])


def near(rng, item):
    """A value of the same kind that is a little different."""
    if isinstance(item, int):
        return item + rng.choice([-1, 1, BLOCK, -BLOCK, -item - 1, 1 << 50, 1 << 31, 1 << 32])
    if isinstance(item, bytes):
        if not item:
            return b'x'
        at = rng.randrange(len(item))
        return rng.choice([item[:at] + bytes([item[at] ^ 1 << rng.randrange(8)]) + item[at + 1:], item[1:], item[:-1],
                           item + item[:1], item[:-20], item[32:], item + bytes(20), item + bytes(32)])
    if isinstance(item, list):
        return rng.choice([item[1:], item + item[:1], item[::-1]])
    return {key: value for key, value in item.items() if rng.random() < 0.7}


def case_of_bytes(rng, program, place):
    """The bytes of a torrent, some of them changed."""
    root, _, _ = random_foreign(rng)
    text = bytearray(encode(root))
    file = place / 'torrent'
    for _ in range(10):
        changed = bytearray(text)
        for _ in range(rng.choice([1, 1, 2, 5])):
            if not changed:
                break
            at = rng.randrange(len(changed))
            way = rng.randrange(4)
            if way == 0:
                changed[at:at + 1] = b''
            elif way == 1:
                changed[at:at] = rng.choice([b'i', b'e', b'0', b'9', b'-', b':', b'l', b'd', b'x', b'0:'])
            elif way == 2:
                changed[at] = rng.choice(b'ield0123456789:-x')
            else:
                del changed[max(at, 1):]
        file.write_bytes(changed)
        expect(program, ['check', str(file)], wanted_lines(bytes(changed)), note=f'{bytes(changed)[:2000]!r}\n')


def case_of_changed(rng, program, place):
    """A torrent changed in each of twenty ways, judged and rechecked in little memory."""
    import changed
    content = place / 'content'
    changed.lay_out(content)
    text = changed.lawful(rng)
    texts = [changed.changed(rng, text) for _ in range(20)]
    changed.try_texts(Again(program, place.parent, changed.ROOM), content, texts, [rng.random() < 0.2 for _ in texts])


def case_of_proof(rng, program, place):
    """Proofs of pieces of one file, right ones and changed ones."""
    p = BLOCK << rng.choice([0, 0, 1, 2])
    data = random_content(rng, random_length(rng, p, 1 << 20) or 1, [])
    text = make([((b'a',), data)], Order('v2', True, b'a', p, None, False, 'one', 1, 16))
    torrent = judge_or_fail(text)
    root = torrent.files[0].root.hex()
    (place / 'torrent').write_bytes(text)
    index = rng.randrange(reference.piece_count(len(data), p))
    proof = reference.prove(torrent, 0, index)
    expect(program, ['prove', str(place / 'torrent'), '0', str(index)], done(proof))
    for _ in range(6):
        words = [root, str(len(data)), str(p)]
        text = proof
        if rng.random() < 0.4:
            words[rng.randrange(3)] = rng.choice([
                root.upper(), root[:-1], root + '0', '0', '00', str(p + 1), str(len(data) + p), str(1 << 50),
                str((1 << 50) + 1), '+5', '5 ', '', str(1 << 64), '\u0663'])
        if rng.random() < 0.6:
            text = changed_proof(rng, proof)
        (place / 'proof').write_bytes(text)
        answer = reference.verify(*words, text)
        wanted = {'yes': done(b'yes\n'), 'no': done(b'no\n', 1)}.get(answer) or refused(answer)
        expect(program, ['verify', *words, str(place / 'proof')], wanted, note=f'{text!r}\n')


def changed_proof(rng, proof):
    lines = proof.splitlines(keepends=True)
    way = rng.randrange(5)
    if way == 0:
        at = rng.randrange(len(proof))
        return proof[:at] + rng.choice([b'', b'0', b'f', b'A', b'\n', b' ']) + proof[at + 1:]
    if way == 1:
        rng.shuffle(lines)
    elif way == 2:
        lines.insert(rng.randrange(len(lines) + 1), rng.choice(lines))
    elif way == 3:
        del lines[rng.randrange(len(lines))]
    else:
        lines[0] = b'index %d\n' % rng.randrange(1 << rng.choice([2, 5, 64]))
    return b''.join(lines)
