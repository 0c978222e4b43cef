"""The library of dist/library as programs in C, Python and Rust call it: torrents, lawful and changed, of which each
tells what the reference does; proofs of pieces; and callers of which plovercasket.h says that they may be so, by
library/callers.c. What wants a compiler, valgrind or Rust that is not there is skipped.
"""
import contextlib
import copy
import hashlib
import importlib.util
import io
import json
import os
import random
import re
import shutil
import subprocess
import sys
import threading
from functools import lru_cache
from pathlib import Path
from unittest import mock

import changed
import foreign
import random_cases
import reference
from reference import BLOCK, BadBencode, Order, Refused, decode, encode, judge, make
from support import LIBRARY, Failure, Skipped, expect_equal, run

HERE = Path(__file__).resolve().parent
SOURCES = HERE / 'library'
SHIPPED = HERE.parent / 'dist' / 'library'
TIME_LIMIT = 300
EXPORTS = ['plover_check', 'plover_info_hashes', 'plover_magnet', 'plover_verify', 'plover_verify_bytes']
CHANGED = 4000
# The KiB of a stack that each call has enough of.
STACK = 64


def library(name='libplovercasket.so'):
    """A file of the library."""
    place = Path(os.environ.get(LIBRARY) or SHIPPED) / name
    if not place.exists():
        raise Skipped(f'there is no {place}: dist/make makes it')
    return place


def tool(name):
    found = shutil.which(name)
    if not found:
        raise Skipped(f'it needs {name}')
    return found


def call(*words, status=0, environment=None):
    """What a program writes. A failure tells what it wrote."""
    done = subprocess.run([str(word) for word in words], capture_output=True, timeout=TIME_LIMIT, check=False,
                          env={**os.environ, **(environment or {})})
    if done.returncode != status:
        raise Failure(f'{words[0]} ends with status {done.returncode}\n{done.stdout[-2000:]!r}\n'
                      f'{done.stderr[-4000:]!r}')
    return done.stdout


def compiled(folder, name, *more, linked=()):
    """A program of a source in C, with the archive in it unless it is linked otherwise."""
    program = folder / 'caller'
    linked = linked or [library('libplovercasket.a')]
    call(tool('cc'), '-std=c11', '-D_GNU_SOURCE', '-Wall', '-Wextra', '-Werror', '-O1', '-g', f'-I{SHIPPED}', *more,
         '-o', program, SOURCES / name, *linked)
    return program


def by_shared_library(folder):
    """The words by which a program is linked with the shared library, which it finds again where it is."""
    place = library().parent
    (folder / 'libplovercasket.so.1').symlink_to(library())
    return [f'-L{place}', '-lplovercasket', f'-Wl,-rpath,{folder}']


@lru_cache(maxsize=None)
def module():
    """plovercasket.py over the library."""
    os.environ['PLOVERCASKET_LIBRARY'] = str(library())
    spec = importlib.util.spec_from_file_location('plovercasket', SHIPPED / 'plovercasket.py')
    made = importlib.util.module_from_spec(spec)
    spec.loader.exec_module(made)
    return made


def without_names(line):
    """The line of a refusal, with the numbers of its codes alone."""
    return re.sub(r'\b([VB]\d+) [A-Z]\w+', r'\1', line).encode()


def line_of(text):
    """What a caller's line tells of a text by the reference."""
    try:
        torrent = judge(text)
    except Refused as refusal:
        return without_names(refusal.line)
    return json.dumps(reference.check_record(torrent), sort_keys=True, ensure_ascii=False,
                      separators=(',', ':')).encode()


def rows():
    """The torrents of foreign.py, each with one place changed."""
    kinds = [foreign.head_rows, foreign.list_rows, foreign.size_rows, foreign.tree_rows, foreign.link_rows,
             foreign.side_rows, foreign.lenient_rows]
    for kind in kinds:
        for name, place, value, *_ in kind():
            yield encode(foreign.edited(foreign.BASES[name], place, value))


@lru_cache(maxsize=None)
def corpus(seed, count=CHANGED):
    """Texts: those of the other tests, and changed torrents."""
    rng = random.Random(seed)
    texts = [encode(root) for root in foreign.BASES.values()]
    texts += [b'', b'i1e', b'le', b'd4:infodeee', b'l' * 101, b'i-0e', b'd1:b0:1:a0:e', b'0:x', b'4:abc', *rows()]
    # Its text is much longer than the torrent, so a caller has no room at first: JSON has six bytes for each of these.
    texts += [make([((b'\x01' * 200 + b'%d' % number,), b'') for number in range(50)],
                   Order('v1', False, b'f', BLOCK, None, False, 'one', 1, 16))]
    for _ in range(count // 20):
        text = changed.lawful(rng)
        texts += [text, *(changed.changed(rng, text) for _ in range(20))]
    return texts


def laid_out(folder, texts):
    """Each text in a file of its own."""
    folder.mkdir()
    places = []
    for number, text in enumerate(texts):
        place = folder / str(number)
        place.write_bytes(text)
        places.append(place)
    return places


def expect_lines(who, texts, told):
    lines = told.split(b'\n')
    expect_equal(f'{who}: how many lines', len(texts) + 1, len(lines))
    for text, line in zip(texts, lines):
        wanted = line_of(text)
        if line != wanted:
            raise Failure(f'{who}: {text[:1000]!r}\nwanted  {wanted[:1000]!r}\ncame    {line[:1000]!r}')


def judged(who, judge_files, folder, seed):
    """Has a program judge the texts, some hundred in each run."""
    texts = corpus(seed)
    places = laid_out(folder / 'torrents', texts)
    for at in range(0, len(texts), 500):
        expect_lines(who, texts[at:at + 500], judge_files(places[at:at + 500]))


def test_c(program, folder):
    caller = compiled(folder, 'judge.c')
    judged('C', lambda places: call(caller, *places), folder, 'c')


def test_c_by_shared_library(program, folder):
    caller = compiled(folder, 'judge.c', linked=by_shared_library(folder))
    judged('C, the shared library', lambda places: call(caller, *places), folder, 'c')


def test_rust(program, folder):
    archive, caller = library('libplovercasket.a').parent, folder / 'caller'
    call(tool('rustc'), '--edition', '2021', '-D', 'warnings', '-O', '-o', caller, SOURCES / 'judge.rs', '-L', archive)
    (folder / 'libplovercasket.so.1').symlink_to(library())
    judged('Rust', lambda places: call(caller, *places, environment={'LD_LIBRARY_PATH': str(folder)}), folder, 'rust')


def by_python(texts):
    """The lines of plovercasket.py; what it tells beside them is compared here."""
    lines = []
    for text in texts:
        plovercasket = module()
        try:
            line = plovercasket.check_text(text).encode()
        except plovercasket.Refused as why:
            lines.append(without_names(str(why)))
            expect_refused(plovercasket, text, why)
            continue
        torrent = judge(text)
        lines.append(line)
        expect_equal(f'the link of {text[:500]!r}', reference.magnet(torrent).decode().rstrip('\n'),
                     plovercasket.magnet(text))
        hashes = [digits and bytes.fromhex(digits.decode()) for digits in reference.info_hashes(torrent)]
        expect_equal(f'the hashes of {text[:500]!r}', hashes, list(plovercasket.info_hashes(text)))
    return b''.join(line + b'\n' for line in lines)


def expect_refused(plovercasket, text, why):
    """The refusal is the reference's line and number, whatever is asked for."""
    try:
        judge(text)
    except Refused as refusal:
        expect_equal(f'the refusal of {text[:500]!r}', refusal.line, str(why))
    try:
        decode(text)
        fault = (None, None)
    except BadBencode as bad:
        fault = (int(bad.code[1:]), bad.offset)
    expect_equal(f'the fault of {text[:500]!r}', fault, (why.fault, why.offset))
    copied = copy.copy(why)
    expect_equal('the copy, as a pickle of it', (str(why), vars(why)), (str(copied), vars(copied)))
    for ask in plovercasket.magnet, plovercasket.info_hashes:
        try:
            ask(text)
        except plovercasket.Refused as other:
            expect_equal(f'{ask.__name__} of {text[:500]!r}', str(why), str(other))
        else:
            raise Failure(f'{ask.__name__} takes {text[:500]!r}')


def test_python(program, folder):
    texts = corpus('python')
    expect_lines('Python', texts, by_python(texts))


def test_as_bench_changed_tries(program, folder):
    """JSON, link and hashes of changed torrents, as bench/changed tries millions of them by the library."""
    rng = random.Random(13)
    for lawful in [changed.lawful(rng) for _ in range(20)]:
        changed.try_by_library(module(), [changed.changed(rng, lawful) for _ in range(50)])


def test_program_tells_the_same(program, folder):
    """The object is the very one of `tor check --json`, and the link that of `tor magnet`."""
    plovercasket, place = module(), folder / 'torrent'
    accepted = 0
    for text in corpus('program', 400):
        place.write_bytes(text)
        told = run(program, ['check', '--json', str(place)])
        try:
            came = plovercasket.check_text(text).encode() + b'\n', b''
            link = plovercasket.magnet(text).encode() + b'\n'
            expect_equal('the link', run(program, ['magnet', str(place)]).out, link)
            accepted += 1
        except plovercasket.Refused as why:
            came = b'', f'tor: {why}\n'.encode()
        expect_equal(f'{text[:500]!r}', (told.out, told.err), came)
    expect_equal('some are torrents', True, accepted > 50)


def claim_of(rng):
    """A file, and the proof of one of its pieces: root, length, piece length, index, bytes, hash and siblings."""
    p = BLOCK << rng.choice([0, 0, 1, 2, 4])
    data = random_cases.random_content(rng, random_cases.random_length(rng, p, 1 << 19) or 1, [])
    torrent = judge(make([((b'a',), data)], Order('v2', True, b'a', p, None, False, 'one', 1, 16)))
    index = rng.randrange(reference.piece_count(len(data), p))
    _, own, siblings = reference.read_proof(reference.prove(torrent, 0, index))
    return [torrent.files[0].root, len(data), p, index, data[index * p:(index + 1) * p], own, siblings]


def turned(rng, claim):
    """The claim with something of it changed, perhaps to what it was."""
    root, length, p, index, data, own, siblings = claim
    other = rng.randbytes(32)
    return rng.choice([
        [other, length, p, index, data, own, siblings],
        [root, rng.choice([0, 1, length + 1, length - 1, length + p, 1 << 50, (1 << 50) + 1, 1 << 63, 1 << 64]), p,
         index, data, own, siblings],
        [root, length, rng.choice([0, 1, 8192, p + 1, p * 2, 1 << 30, 1 << 31, (1 << 64) - 1, 1 << 64]), index, data,
         own, siblings],
        [root, length, p, rng.choice([index + 1, index ^ 1, 1 << 36, (1 << 64) - 1, 1 << 64]), data, own, siblings],
        [root, length, p, index, rng.choice([b'', data[:-1], data + b'\0', b'\1' + data[1:], data[::-1]]),
         rng.choice([other, root, own[::-1]]), siblings],
        [root, length, p, index, data, own, rng.choice([[], siblings[:-1], siblings + [other], siblings + [bytes(32)],
                                                        siblings[::-1], [other] * len(siblings), [other] * 37])],
    ])


def wanted_of(claim):
    """By the reference: whether hash and bytes are proved; or which argument is none of its kind."""
    root, length, p, index, data, own, siblings = claim
    if not 1 <= length <= reference.MAX_FILE_LENGTH:
        return 'bad length'
    if not reference.is_power(p, BLOCK, reference.MAX_PIECE_LENGTH):
        return 'bad piece length'
    has_length = data != b'' and len(data) == min(p, max(0, length - index * p))
    return (reference.holds(root, length, p, (index, own, siblings)),
            has_length and reference.holds(root, length, p, (index, reference.piece_hash(data, length, p), siblings)))


def test_proofs(program, folder):
    """Proofs that hold, and changed ones."""
    plovercasket, rng, counts = module(), random.Random('proofs'), {}
    for _ in range(400):
        right = claim_of(rng)
        for claim in [right, *(turned(rng, right) for _ in range(9))]:
            root, length, p, index, data, own, siblings = claim
            try:
                came = (plovercasket.verify(root, length, p, index, own, siblings),
                        plovercasket.verify_bytes(root, length, p, index, data, siblings))
            except plovercasket.BadArgument as why:
                came = str(why)
            expect_equal(f'{claim!r:.2000}', wanted_of(claim), came)
            counts[came] = counts.get(came, 0) + 1
    expect_equal('what is answered', {(True, True), (False, False), 'bad length', 'bad piece length'},
                 set(counts) - {(True, False), (False, True)})


def test_large(program, folder):
    """A torrent of some megabytes, pieces of 16 MiB, and a proof of as many siblings as there are at most."""
    plovercasket, rng = module(), random.Random('large')
    files = [((b'%d' % number,), b'') for number in range(100000)] + [((b'a',), b'a')]
    text = make(files, Order('v1', False, b'f', BLOCK, None, False, 'one', 1, 16))
    expect_equal('is it large', True, len(text) > 1 << 21)
    expect_lines('a large torrent', [text], by_python([text]))
    p, data = 1 << 24, rng.randbytes(1 << 24)
    own, last = reference.piece_hash(data, p + 1, p), reference.piece_hash(b'a', p + 1, p)
    root = hashlib.sha256(own + last).digest()
    expect_equal('a piece', True, plovercasket.verify_bytes(root, p + 1, p, 0, data, [last]))
    expect_equal('another', False, plovercasket.verify_bytes(root, p + 1, p, 0, data[:-1] + b'a', [last]))
    siblings, index = [rng.randbytes(32) for _ in range(36)], rng.randrange(1 << 36)
    root = own
    for level, sibling in enumerate(siblings):
        root = hashlib.sha256(sibling + root if index >> level & 1 else root + sibling).digest()
    expect_equal('36 siblings', [True, False],
                 [plovercasket.verify(root, 1 << 50, BLOCK, at, own, siblings) for at in (index, index ^ 1)])


def told_of(text):
    try:
        return module().check_text(text), module().magnet(text), module().info_hashes(text)
    except module().Refused as why:
        return str(why)


def test_python_threads(program, folder):
    """A hundred threads of one Python."""
    texts = some('threads', 100)
    wanted, told = [told_of(text) for text in texts], []
    threads = [threading.Thread(target=lambda: told.append([told_of(text) for text in texts] == wanted))
               for _ in range(100)]
    for thread in threads:
        thread.start()
    for thread in threads:
        thread.join()
    expect_equal('the threads', [True] * len(threads), told)


# Judges the torrent FILE with so much memory as is left of 1 GiB.
WITH_LITTLE_MEMORY = """
import resource, sys
import plovercasket
resource.setrlimit(resource.RLIMIT_AS, (1 << 30, 1 << 30))
torrent = open(sys.argv[1], 'rb').read()
try:
    plovercasket.check(torrent)
except MemoryError:
    print(plovercasket.magnet(torrent), plovercasket.info_hashes(torrent).v2.hex())
"""


def test_long_report(program, folder):
    """Of many files below a folder with a long name the hashes are told, though there is no memory for the report."""
    files = {b'%d' % number: {b'': {b'length': 0}} for number in range(8000)}
    info = {b'file tree': {b'a' * 250000: files}, b'meta version': 2, b'name': b'f', b'piece length': BLOCK}
    place = folder / 'torrent'
    place.write_bytes(encode({b'info': info, b'piece layers': {}}))
    digits = hashlib.sha256(encode(info)).hexdigest()
    told = call(sys.executable, '-B', '-c', WITH_LITTLE_MEMORY, place,
                environment={'PYTHONPATH': str(SHIPPED), 'PLOVERCASKET_LIBRARY': str(library())})
    expect_equal('what is told', f'magnet:?xt=urn:btmh:1220{digits} {digits}\n', told.decode())


WRAPPED = [f'-Wl,--wrap={name}' for name in ('malloc', 'realloc', 'free')]


def some(seed, count, most=1 << 15):
    """Some small texts, torrents and others."""
    texts = [text for text in corpus(seed, 20 * count) if len(text) < most]
    return random.Random(seed).sample(texts, min(count, len(texts)))


def test_callers(program, folder):
    """A thousand threads at once, rooms that are too small, and requests for memory refused in turn."""
    caller = compiled(folder, 'callers.c', '-pthread', *WRAPPED)
    places = laid_out(folder / 'torrents', [encode(root) for root in foreign.BASES.values()] + some('callers', 60))
    for words in (['threads', 1000, 256], ['rooms'], ['memory']):
        expect_equal(f'{words}', b'%d files\n' % len(places), call(caller, *words, *places))


# A program around the example in C.
PASTED = """
int main(int count, char **words) {
    static uint8_t torrent[1 << 20];
    FILE *file = fopen(words[count - 1], "rb");
    size_t size, length = fread(torrent, 1, sizeof torrent, file);
    char *told = described(torrent, length, &size);
    if (told == NULL) return 1;
    printf("%.*s\\n", (int)size, told);
    free(told);
    return fclose(file);
}
"""


def pasted(language):
    """The example of docs/LIBRARY.md in a language."""
    page = (HERE.parent / 'docs' / 'LIBRARY.md').read_text(encoding='utf-8')
    return re.search(rf'```{language}\n(.*?)```', page, re.S)[1]


def test_pasted_examples(program, folder):
    """The examples that a client's author can paste, as they stand on the page."""
    source, caller, place = folder / 'pasted.c', folder / 'caller', folder / 'torrent'
    source.write_text(pasted('c') + PASTED)
    call(tool('cc'), '-std=c11', '-Wall', '-Wextra', '-Werror', f'-I{SHIPPED}', '-o', caller, source,
         library('libplovercasket.a'))
    scope, added, printed = {}, [], io.StringIO()
    with mock.patch.dict(sys.modules, {'plovercasket': module()}), contextlib.redirect_stdout(printed):
        exec(pasted('python'), scope)
        for text in [encode(foreign.BASES['hybrid']), b'd1:b0:1:a0:e', b'd4:infodeee']:
            place.write_bytes(text)
            line = line_of(text)
            told = call(caller, place, status=0 if line.startswith(b'{') else 1)
            expect_equal('what is told', line + b'\n' if line.startswith(b'{') else b'', told)
            expect_equal('whether it is added', line.startswith(b'{'),
                         scope['add'](mock.Mock(add=added.append), text))
    expect_equal('what is added', [encode(foreign.BASES['hybrid'])], added)
    expect_equal('what is printed', ['f 40003', 'not added: V1 Bencode B7 KeyOrder at 6',
                                     'not added: V1 Bencode B9 Trailing at 10'], printed.getvalue().splitlines())


def nested(text, around):
    """A text inside as many lists or dictionaries as may be open, 99 of them."""
    for _ in range(99):
        text = around % text
    return text


def test_small_stack(program, folder):
    """Deep trees, long paths and long layers, in threads with STACK KiB of stack."""
    caller = compiled(folder, 'callers.c', '-pthread', *WRAPPED)
    v1, v2 = foreign.BASES['v1'], foreign.BASES['v2']
    with_names = foreign.edited(v1, foreign.FIRST + (b'path',), [b'a'] * 10000)
    below = foreign.BASES['v2'][b'info'][b'file tree'][b'a']
    for _ in range(90):
        below = {b'a': below}
    data = random.Random('stack').randbytes(BLOCK * 300)
    texts = [nested(b'le', b'l%be'), nested(b'de', b'd0:%be'), nested(b'', b'l%be'), encode(with_names),
             encode(foreign.edited(v2, foreign.TREE + (b'a',), below)),
             make([((b'a',), data)], Order('hybrid', True, b'a', BLOCK, None, False, 'one', 1, 16))]
    places = laid_out(folder / 'torrents', texts)
    expect_equal('the callers', b'%d files\n' % len(places), call(caller, 'threads', 20, STACK, *places))


def test_callers_under_sanitizer(program, folder):
    """The same under AddressSanitizer, with fewer threads."""
    try:
        caller = compiled(folder, 'callers.c', '-pthread', '-fsanitize=address', *WRAPPED)
    except Failure as failure:
        raise Skipped(f'no AddressSanitizer: {str(failure)[:200]}') from None
    places = laid_out(folder / 'torrents', some('callers', 40))
    for words in (['threads', 20, 512], ['rooms'], ['memory']):
        expect_equal(f'{words}', b'%d files\n' % len(places), call(caller, *words, *places))


def test_callers_under_valgrind(program, folder):
    """Callers under valgrind, which tells reads past an end, values that were never set, and blocks that are lost."""
    caller = compiled(folder, 'judge.c')
    texts = some('valgrind', 60)
    places = laid_out(folder / 'torrents', texts)
    told = call(tool('valgrind'), '-q', '--error-exitcode=9', '--leak-check=full', '--show-leak-kinds=all', caller,
                *places)
    expect_lines('C under valgrind', texts, told)


def test_header(program, folder):
    """The header is C and C++, and asks for no other."""
    for compiler, language, standard in [('cc', 'c', 'c99'), ('cc', 'c', 'c11'), ('c++', 'c++', 'c++11'),
                                         ('c++', 'c++', 'c++20')]:
        call(tool(compiler), f'-std={standard}', '-pedantic', '-Wall', '-Wextra', '-Werror', '-fsyntax-only', '-x',
             language, SHIPPED / 'plovercasket.h')


def test_exports(program, folder):
    """The shared library gives out the names of its functions and no other, and asks for memory alone."""
    told = call(tool('nm'), '-D', '--format=posix', library()).decode().splitlines()
    names = {line.split()[0].partition('@')[0]: line.split()[1] for line in told}
    expect_equal('what it gives out', EXPORTS, sorted(name for name, kind in names.items() if kind == 'T'))
    asked = {'malloc', 'realloc', 'free', 'memcpy', 'memmove', 'memset', 'memcmp', 'bcmp'}
    expect_equal('what else it asks for', set(), {name for name, kind in names.items() if kind != 'T'} - asked)
    told = call(tool('nm'), '--format=posix', '--extern-only', '--defined-only', library('libplovercasket.a')).decode()
    expect_equal('the archive', EXPORTS, sorted(re.findall(r'^(\w+) T', told, re.M)))
