"""The launcher and dist/install over a folder that is laid out as a clone, with programs in its dist/ that start, and
others that do not."""
import gzip
import hashlib
import itertools
import os
import re
import shutil
import struct
import subprocess
import time
from pathlib import Path

from support import Failure, Skipped, Told, expect_equal, expect_told

ROOT = Path(__file__).resolve().parent.parent
PLACES = ['bin/tor', 'share/man/man1/tor.1', 'share/bash-completion/completions/tor',
          'share/zsh/site-functions/_tor', 'share/fish/vendor_completions.d/tor.fish']
# It has no `rt`, so that nothing is built.
PATH = ':'.join(place for place in os.environ['PATH'].split(':') if not os.path.exists(os.path.join(place, 'rt')))


def sha256(place):
    return hashlib.sha256(Path(place).read_bytes()).hexdigest()


def digest_of(root, *kinds, crates=('tor',)):
    """That of the files of these kinds, of crates.txt and of HANDLES: of their digests and names, one line each."""
    places = ['crates.txt', 'HANDLES']
    for folder in (f'crates/{crate}/{kind}' for crate in crates for kind in kinds):
        found = [path for path in (root / folder).rglob('*') if path.suffix in ('.rt', '.antt')]
        places += [str(path.relative_to(root)) for path in found]
    lines = [f'{sha256(root / place)}  {place}\n' for place in sorted(places)]
    return hashlib.sha256(''.join(lines).encode()).hexdigest()


class Clone:
    """A clone of few sources, with a program in dist/."""

    def __init__(self, folder, program):
        self.root, self.temporary = folder / 'clone', folder / 'temporary'
        self.temporary.mkdir(parents=True)
        for name in ['tor', 'dist/install', 'dist/launch.sh', 'dist/from-source', 'docs/tor.1', 'dist/completions']:
            (self.root / name).parent.mkdir(parents=True, exist_ok=True)
            copy = shutil.copytree if (ROOT / name).is_dir() else shutil.copy2
            copy(ROOT / name, self.root / name)
        main = self.root / 'crates' / 'tor' / 'src' / 'main.rt'
        main.parent.mkdir(parents=True)
        main.write_text('fn main() {}\n')
        main.with_name('words.rt').write_text('')
        (self.root / 'crates/tor/proofs').mkdir()
        (self.root / 'crates/tor/proofs/main.antt').write_text('lemma')
        (self.root / 'crates.txt').write_text('tor:\n')
        (self.root / 'HANDLES').write_text('Handles allowed: none.\n')
        self.pack(program)
        self.digest = digest_of(self.root, 'src', 'specs')
        self.name(program)

    def pack(self, program):
        """Has this program in its dist/, for each processor."""
        for processor in ['v2', 'v3']:
            (self.root / 'dist' / f'tor-x86-64-{processor}.gz').write_bytes(gzip.compress(program, 1))

    def name(self, program):
        """Names the sources and this program in dist/built-from."""
        digest = hashlib.sha256(program).hexdigest()
        (self.root / 'dist' / 'built-from').write_text(
            f'{self.digest}\na toolchain\nC library {"0" * 64}\nx86-64-v2 {digest}\nx86-64-v3 {digest}\n')

    def run(self, name, *words, data=b'', path=None, by=(), where=None, environment=None):
        """Runs one of its scripts, by a command that has more words after it; other commands are looked for in the
        folder `path` first. What is None in the environment is not in it."""
        variables = {**os.environ, 'PATH': f'{path}:{PATH}' if path else PATH, 'TMPDIR': str(self.temporary),
                     'LC_ALL': 'C', **(environment or {})}
        done = subprocess.run([*by, self.root / name, *words], input=data, capture_output=True, timeout=60, check=False,
                              cwd=where, env={name: value for name, value in variables.items() if value is not None})
        return Told(done.returncode, done.stdout, done.stderr)

    def expect(self, wanted, name, *words, **more):
        told = self.run(name, *words, **more)
        expect_told([f'({name})', *words], wanted, told)
        return told

    def left(self):
        """What it has unpacked, and what lies in the folder for temporary files."""
        out = self.root / 'out'
        return sorted(os.listdir(out) if out.is_dir() else []), os.listdir(self.temporary)

    def out_of_reach(self):
        """No folder out/ can be made."""
        shutil.rmtree(self.root / 'out', ignore_errors=True)
        (self.root / 'out').write_bytes(b'')


def with_first_instruction(program, code):
    """The program with other bytes where it begins."""
    entry, headers = struct.unpack_from('<QQ', program, 24)
    for at in range(headers, headers + 56 * struct.unpack_from('<H', program, 56)[0], 56):
        kind, _, offset, address, _, length = struct.unpack_from('<IIQQQQ', program, at)
        if kind == 1 and address <= entry < address + length:
            place = entry - address + offset
            return program[:place] + code + program[place + len(code):]
    raise Failure('the program has no place where it begins')


def programs_that_do_not_start(program):
    """Each with a part of the reason that is told."""
    lacks = "this machine lacks a feature of x86-64-v2, which this program was built for: run it on another machine"
    return [
        (program[:18] + struct.pack('<H', 183) + program[20:], b'it is no program for x86-64\n'),
        (b'', b'it is no program for x86-64\n'),
        (program[:4096], b'it ends with status '),
        (with_first_instruction(program, b'\x0f\x0b'), b'it ends with status 132\n'),
        (b'#!/bin/bash\nexit 3\n', b'it ends with status 3\n'),
        (b'#!/bin/bash\necho one >&2\necho two >&2\nexit 1\n', b'not start here: one\n'),
        (f'#!/bin/bash\necho "{lacks}" >&2\nexit 127\n'.encode(),
         b'this processor lacks instructions that it needs (x86-64-v2)\n'),
        (b'#!/absent/shell\n', b''),
    ]


def expect_not_started(clone, reason, name, *words):
    told = clone.run(name, *words)
    expect_equal(f'{name} {words}: status and output', (70, b''), (told.status, told.out))
    if not told.err.startswith(b'tor: the program does not start here: ') or told.err.count(b'\n') != 1 \
            or reason not in told.err or told.err.endswith(b': \n') or os.fsencode(clone.root) in told.err:
        raise Failure(f'{name} {words}: told {told.err!r}, and not in one line that it does not start, with {reason!r}')


def test_program_that_does_not_start(program, folder):
    """One line and status 70 from the launcher and dist/install, which leave nothing."""
    for number, (bad, reason) in enumerate(programs_that_do_not_start(Path(program).read_bytes())):
        clone = Clone(folder / str(number), bad)
        prefix = folder / str(number) / 'prefix'
        for name, *words in [('tor', '--version'), ('tor', 'make', '--name', 'a'), ('tor', '--where'),
                             ('dist/install', str(prefix))]:
            expect_not_started(clone, reason, name, *words)
        expect_equal('what is left', ([], []), clone.left())
        clone.out_of_reach()
        expect_not_started(clone, reason, 'tor', '--version')
        expect_not_started(clone, reason, 'dist/install', str(prefix))
        expect_equal('temporary files', [], os.listdir(clone.temporary))
        expect_equal('the folder to install in', False, prefix.exists())


def test_program_unpacked_elsewhere(program, folder):
    """What another machine has unpacked, and does not start on this one: dist/install sees it."""
    bad = with_first_instruction(Path(program).read_bytes(), b'\x0f\x0b')
    clone = Clone(folder, Path(program).read_bytes())
    place = Path(clone.run('tor', '--where').out.decode().strip())
    clone.name(bad)
    place.write_bytes(bad)
    expect_not_started(clone, b'it ends with status 132\n', 'dist/install', str(folder / 'prefix'))


def test_another_machine(program, folder):
    """On another system or processor than x86-64 Linux: one line and status 70, and nothing is unpacked."""
    clone = Clone(folder, Path(program).read_bytes())
    other = folder / 'other'
    other.mkdir()
    (other / 'uname').write_text('#!/bin/sh\necho Linux aarch64\n')
    (other / 'uname').chmod(0o755)
    told = b'tor: the program is for x86-64 Linux, and this is Linux aarch64\n'
    for name, *words in [('tor', '--version'), ('tor', '--where'), ('dist/install', str(folder / 'prefix'))]:
        clone.expect(Told(70, b'', told), name, *words, path=other)
    expect_equal('what is left', ([], []), clone.left())


def test_program_is_tried_once(_, folder):
    """After it was unpacked; no more of it is run at each call, in a folder for this one call too."""
    log = folder / 'log'
    clone = Clone(folder, f'#!/bin/bash\necho "$*" >>{log}\ncat\n'.encode())
    clone.expect(Told(0, b'ab', b''), 'tor', 'make', '--name', 'a', data=b'ab')
    clone.expect(Told(0, b'cd', b''), 'tor', 'check', data=b'cd')
    expect_equal('the runs', '--version\nmake --name a\ncheck\n', log.read_text())
    clone.out_of_reach()
    clone.expect(Told(0, b'ef', b''), 'tor', 'verify', data=b'ef')
    expect_equal('the runs', ['--version', 'verify'], log.read_text().splitlines()[3:])


def test_program_that_starts(program, folder):
    """It is unpacked and run with its words, input and status; a damaged dist/ is told, and nothing is built."""
    clone = Clone(folder, Path(program).read_bytes())
    place = clone.run('tor', '--where').out.decode().strip()
    expect_equal('the program', True, Path(place).read_bytes() == Path(program).read_bytes())
    clone.expect(Told(0, b'tor 1.2.0\n', b''), 'tor', '--version')
    clone.expect(Told(3, b'', b'tor: read fault\n'), 'tor', 'check', str(folder / 'absent'))
    clone.expect(Told(1, b'', b'tor: N3 DotDot\n'), 'tor', 'make', '--name', '..', data=b'ab')
    shutil.rmtree(clone.root / 'out')
    wanted = b'it has to be built from its sources, and rt is not on the PATH\n'
    for packed in clone.root.glob('dist/*.gz'):
        packed.write_bytes(packed.read_bytes()[:-9])
    told = clone.run('tor', '--version')
    expect_equal('of a damaged one', (70, b'', 2, True),
                 (told.status, told.out, told.err.count(b'\n'), told.err.endswith(b'is damaged\ntor: ' + wanted)))
    (clone.root / 'dist' / 'built-from').write_text('0' * 64 + '\n')
    clone.expect(Told(70, b'', b'tor: ' + wanted), 'dist/install', str(folder / 'prefix'))
    expect_equal('what is left', ([], []), clone.left())


def script(folder, name='log'):
    """A program that tells its words in a file, and the file."""
    return f'#!/bin/sh\necho "$*" >>{folder / name}\n'.encode(), folder / name


def unpacked(clone):
    """Where the program lies that the clone has unpacked."""
    return next((clone.root / 'out').glob('tor.*'))


def seen_of(clone):
    """Where the clone keeps what it saw since this machine was started."""
    told = Path('/proc/sys/kernel/random/boot_id')
    return clone.root / 'out' / f'seen.{told.read_text().strip() if told.exists() else unpacked_processor(clone)}'


def with_seen(clone):
    """The clone, once it has kept what it saw; just made files are too young for that."""
    time.sleep(3.1)
    clone.run('tor', '--version')
    clone.run('tor', '--version')
    expect_equal('what was seen is kept', [seen_of(clone)], list((clone.root / 'out').glob('seen.*')))
    return clone


def test_changed_program_in_out(program, folder):
    """Emptied, cut or with another byte, its own date kept: it is made anew, and not run."""
    wanted = Path(program).read_bytes()
    clone = Clone(folder, wanted)
    clone.run('tor', '--version')
    for _ in range(2):
        place = unpacked(clone)
        for bad in b'', wanted[:-1], wanted[:1000] + b'x' + wanted[1001:], script(folder)[0]:
            status = place.stat()
            place.write_bytes(bad)
            os.utime(place, ns=(status.st_atime_ns, status.st_mtime_ns))
            clone.expect(Told(0, b'tor 1.2.0\n', b''), 'tor', '--version')
            expect_equal('the program', True, place.read_bytes() == wanted)
        place.write_bytes(b'')
        expect_equal('what is installed', 0, clone.run('dist/install', str(folder / 'prefix')).status)
        expect_equal('its bytes', True, (folder / 'prefix/bin/tor').read_bytes() == wanted)
        with_seen(clone)
    expect_equal('the other was run', False, (folder / 'log').exists())


def test_dist_is_compared(_, folder):
    """A program in dist/ that built-from does not name is not run, not unpacked and not installed."""
    (good, log), (bad, bad_log) = script(folder), script(folder, 'bad')
    clone = Clone(folder, good)
    clone.pack(bad)
    build = b'tor: it has to be built from its sources, and rt is not on the PATH\n'
    for name, *words in [('tor', '--version'), ('tor', '--where'), ('dist/install', str(folder / 'prefix'))]:
        told = clone.run(name, *words)
        expect_equal('what is told', (70, b'', True, build),
                     (told.status, told.out, b'.gz is not the program that dist/built-from names\n' in told.err,
                      told.err.partition(b'\n')[2]))
    clone.out_of_reach()
    expect_equal('without out/', 70, clone.run('tor', '--version').status)
    (clone.root / 'out').unlink()
    for text in clone.digest + '\n', clone.digest + '\nx86-64-v2 0\nx86-64-v3 0\n', '':
        (clone.root / 'dist' / 'built-from').write_text(text)
        clone.expect(Told(70, b'', b'tor: dist/built-from is damaged\n' + build), 'tor', '--version')
    (clone.root / 'out').mkdir()
    (clone.root / 'dist' / 'built-from').unlink()
    clone.expect(Told(70, b'', b'tor: dist/built-from is missing\n' + build), 'tor', '--version')
    expect_equal('what is left', ([], []), clone.left())
    expect_equal('what was run', (False, False), (log.exists(), bad_log.exists()))
    expect_equal('the folder to install in', False, (folder / 'prefix').exists())


def test_what_is_not_named_is_not_run(_, folder):
    """Nothing in out/ is run if built-from has the sources, but no program, however often it is called."""
    (good, _), (bad, bad_log) = script(folder), script(folder, 'bad')
    clone = Clone(folder, good)
    expect_equal('status', 0, clone.run('tor', '--version').status)
    unpacked(clone).write_bytes(bad)
    (clone.root / 'dist' / 'built-from').write_text(clone.digest + '\n')
    time.sleep(3.1)
    for _ in range(3):
        expect_equal('status', 70, clone.run('tor', '--version').status)
    expect_equal('whether it was run', False, bad_log.exists())


def test_install_compares(_, folder):
    """The archive's installer puts no program that its built-from does not name."""
    (good, log), (bad, _) = script(folder), script(folder, 'bad')
    clone = Clone(folder / 'made', good)
    archive = folder / 'archive'
    (archive / 'programs').mkdir(parents=True)
    for name in 'install', 'launch.sh', 'built-from', 'completions':
        (shutil.copytree if name == 'completions' else shutil.copy2)(clone.root / 'dist' / name, archive / name)
    shutil.copytree(clone.root / 'docs', archive / 'docs')

    def install(content):
        for processor in 'v2', 'v3':
            (archive / 'programs' / f'tor-x86-64-{processor}').write_bytes(content)
            (archive / 'programs' / f'tor-x86-64-{processor}').chmod(0o755)
        done = subprocess.run([archive / 'install', folder / 'prefix'], capture_output=True, check=False)
        return done.returncode, done.stderr.count(b'\n'), done.stderr.endswith(
            b'is not the program that %s/built-from names\n' % os.fsencode(archive))

    for content in bad, b'', good[:-1]:
        expect_equal('another program', (70, 1, True), install(content))
        expect_equal('the folder to install in', False, (folder / 'prefix').exists())
    expect_equal('the program', (0, 0, False), install(good))
    expect_equal('what was run', '--version\n', log.read_text())
    (archive / 'built-from').unlink()
    expect_equal('without built-from', 70, install(good)[0])


def as_nobody():
    """The words that run a command as another user."""
    by = ('setpriv', '--reuid=65534', '--regid=65534', '--clear-groups')
    if os.geteuid() or not shutil.which('setpriv') or subprocess.run([*by, 'true'], check=False).returncode:
        raise Skipped('it needs root, and setpriv')
    return by


def test_out_that_others_can_write(_, folder):
    """Nothing of it is run, and nothing written to it; the program runs from a folder for this run, which goes."""
    (good, log), (bad, bad_log) = script(folder), script(folder, 'bad')
    clone = Clone(folder, good)
    clone.run('tor', '--version')
    place = unpacked(clone)
    with_seen(clone)
    before = sorted(os.listdir(place.parent))
    runs = len(log.read_text().splitlines())
    # What others could write there: what was seen as it is, without the first file, and with the line of the folder.
    lines = seen_of(clone).read_text().splitlines(keepends=True)
    forged = [lines, lines[:1] + lines[2:], [lines[0], 'out\n', *lines[1:]]]
    for text, mode in itertools.product([*forged, None], (0o777, 0o775, 0o757, 0o1777)):
        if text:
            seen_of(clone).write_text(''.join(text))
        else:
            place.write_bytes(bad)
        place.parent.chmod(mode)
        clone.expect(Told(0, b'', b''), 'tor', 'check', f'{mode}')
        expect_equal('the runs', ['--version', f'check {mode}'], log.read_text().splitlines()[runs:])
        expect_equal('what is left', (before, []), clone.left())
        runs += 2
    place.parent.chmod(0o755)
    for content in good, bad:
        place.write_bytes(content)
        if content == good:
            with_seen(clone)
        runs = len(log.read_text().splitlines())
        place.parent.rename(folder / 'elsewhere')
        (clone.root / 'out').symlink_to(folder / 'elsewhere')
        clone.expect(Told(0, b'', b''), 'tor', 'check', 'a link')
        expect_equal('what was run of it', (False, ['--version', 'check a link']),
                     (bad_log.exists(), log.read_text().splitlines()[runs:]))
        (clone.root / 'out').unlink()
        (folder / 'elsewhere').rename(clone.root / 'out')
    clone.expect(Told(0, b'', b''), 'tor', 'check', 'alone')
    expect_equal('the program', (good, False), (place.read_bytes(), bad_log.exists()))
    seen_of(clone).unlink()
    os.mkfifo(seen_of(clone))
    place.parent.chmod(0o777)
    clone.expect(Told(0, b'', b''), 'tor', 'check', 'a pipe')


def test_out_of_another_user(_, folder):
    """Of root's an other user runs what is right, and of another's root runs nothing."""
    by = as_nobody()
    (good, _), (bad, bad_log) = script(folder), script(folder, 'bad')
    clone = Clone(folder, good.replace(b'echo "$*" >>', b'echo "$*" #'))
    for place in folder, folder.parent, clone.temporary:
        place.chmod(place.stat().st_mode | 0o755)
    clone.temporary.chmod(0o1777)
    clone.run('tor', '--version')
    place = unpacked(clone)
    where = clone.expect(Told(0, os.fsencode(place) + b'\n', b''), 'tor', '--where', by=by).out
    seen_of(clone).write_text('')
    seen_of(clone).chmod(0)
    clone.expect(Told(0, where, b''), 'tor', '--where', by=by)
    seen_of(clone).unlink()
    for mode in 0o755, 0o777:
        place.write_bytes(bad)
        place.parent.chmod(mode)
        clone.expect(Told(0, b'a\n', b''), 'tor', 'a', by=by)
    expect_equal('the runs of the other', False, bad_log.exists())
    place.parent.chmod(0o755)
    shutil.rmtree(place.parent)
    for mask in '077', '000', '002':
        clone.expect(Told(0, where, b''), 'tor', '--where', by=('sh', '-c', f'umask {mask}; exec "$@"', 'sh'))
        expect_equal('the rights', (0o700 if mask == '077' else 0o755, 0o755),
                     (place.parent.stat().st_mode & 0o7777, place.stat().st_mode & 0o7777))
        clone.expect(Told(0, b'b\n', b''), 'tor', 'b', by=by)
        shutil.rmtree(place.parent)
    place.parent.mkdir()
    place.write_bytes(bad)
    place.chmod(0o755)
    os.chown(place.parent, 65534, 65534)
    clone.expect(Told(0, b'c\n', b''), 'tor', 'c')
    expect_equal('the program', bad, place.read_bytes())
    clone.expect(Told(0, b'd\n', b''), 'tor', 'd', by=by)
    expect_equal('what is left', ([place.name], []), clone.left())
    expect_equal('the runs of the other', False, bad_log.exists())


def test_sources_that_cannot_be_read(_, folder):
    """One line."""
    by = as_nobody()
    clone, told = Clone(folder, script(folder)[0]), Told(70, b'', b'tor: the sources cannot be read\n')
    for place in folder, folder.parent:
        place.chmod(place.stat().st_mode | 0o755)
    for place, mode in (clone.root / 'crates/tor/src/main.rt', 0o600), (clone.root / 'crates/tor/src', 0o700):
        place.chmod(mode)
        for word in '--version', '--sources':
            clone.expect(told, 'tor', word, by=by)
    (clone.root / 'out').mkdir()
    for place in clone.root / 'HANDLES', clone.root / 'crates.txt':
        place.rename(folder / 'kept')
        for word in '--version', '--sources':
            clone.expect(told, 'tor', word)
        (folder / 'kept').rename(place)


class Reads:
    """Whether the digest of the sources is read: each reading calls sha256sum, whose words are told in a file here."""

    def __init__(self, folder):
        self.log = folder / 'reads'
        self.path = folder / 'commands'
        self.path.mkdir()
        real = shutil.which('sha256sum')
        (self.path / 'sha256sum').write_text(f'#!/bin/sh\necho "$*" >>{self.log}\nexec {real} "$@"\n')
        (self.path / 'sha256sum').chmod(0o755)

    def expect(self, is_read, clone, wanted, note):
        self.log.write_text('')
        told = clone.run('tor', '--version', path=self.path)
        expect_equal(note, (is_read, wanted), ('/src/words.rt' in self.log.read_text(), told))


def rewritten(place, content):
    """Writes a file in place, and gives it the date that it had."""
    status = place.stat()
    place.write_text(content)
    os.utime(place, ns=(status.st_atime_ns, status.st_mtime_ns))


def test_digest_is_read_if_something_changed(_, folder):
    """And else not: a date that is kept, a file that is put, taken or moved, another clone."""
    clone = Clone(folder, b'#!/bin/sh\n')
    reads, right = Reads(folder), Told(0, b'', b'')
    build = Told(70, b'', b'tor: it has to be built from its sources, and rt is not on the PATH\n')
    main, specs = clone.root / 'crates/tor/src/main.rt', clone.root / 'crates/tor/specs'
    reads.expect(True, clone, right, 'at first')
    reads.expect(True, clone, right, 'just after')
    with_seen(clone)
    reads.expect(False, clone, right, 'nothing changed')
    for name in ['.main.rt.swp', 'main.rt~', '#main.rt#', '4913', 'main.rt.orig']:
        (main.parent / name).write_text('fn')
    (main.parent / '.#main.rt').symlink_to('someone@somewhere')
    reads.expect(False, clone, right, 'files of editors')
    change_proofs(clone)
    reads.expect(False, clone, right, 'proofs')
    (folder / 'git').mkdir()
    exported = {'GIT_DIR': str(folder / 'git'), 'GIT_WORK_TREE': '/'}
    told = clone.run('tor', '--version', path=reads.path, environment=exported)
    expect_equal('GIT_DIR', (right, ''), (told, reads.log.read_text()))
    rewritten(main, 'fn main() { }')
    reads.expect(True, clone, build, 'the same date and length')
    rewritten(main, 'fn main() {}\n')
    reads.expect(True, clone, right, 'as it was')
    for content, wanted in ('fn f() {}\n', build), (None, right):
        with_seen(clone)
        reads.expect(False, clone, right, 'nothing changed')
        specs.mkdir(exist_ok=True)
        if content:
            (specs / 'a.antt').write_text(content)
            os.utime(specs / 'a.antt', (1e9, 1e9))
            os.utime(specs, (1e9, 1e9))
        reads.expect(bool(content), clone, wanted, 'a file more' if content else 'a folder more')
        shutil.rmtree(specs)
    with_seen(clone)
    main.rename(folder / 'kept')
    reads.expect(True, clone, build, 'a file less')
    shutil.copy2(folder / 'kept', main)
    reads.expect(True, clone, right, 'a copy in its place')
    with_seen(clone)
    rewritten(clone.root / 'HANDLES', 'Handles allowed: one .\n')
    reads.expect(True, clone, build, 'HANDLES')
    rewritten(clone.root / 'HANDLES', 'Handles allowed: none.\n')
    with_seen(clone)
    shutil.copytree(clone.root, folder / 'copy', symlinks=True)
    clone.root = folder / 'copy'
    reads.expect(True, clone, right, 'a copy with its dates')
    with_seen(clone)
    next((clone.root / 'out').glob('seen.*')).unlink()
    (reads.path / 'date').write_text('#!/bin/sh\necho 1000000000\n')
    (reads.path / 'date').chmod(0o755)
    for note in 'a clock that was set back', 'and still is':
        reads.expect(True, clone, right, note)
    (reads.path / 'date').unlink()
    with_seen(clone)
    text = (clone.root / 'dist/built-from').read_text()
    rewritten(clone.root / 'dist/built-from', text.replace(clone.digest, '0' * 64))
    reads.expect(True, clone, build, 'built-from')
    time.sleep(3.1)
    reads.expect(True, clone, build, 'of other sources')
    reads.expect(False, clone, build, 'of other sources, once more')


def change_proofs(clone):
    """Another text in one, one more, and one less."""
    for text in 'lemma lemma', 'lemma':
        (clone.root / 'crates/tor/proofs/main.antt').write_text(text)
    (clone.root / 'crates/tor/proofs/deep').mkdir()
    (clone.root / 'crates/tor/proofs/deep/x.antt').write_text('')
    (clone.root / 'crates/tor/proofs/main.antt').unlink()


def test_digests(_, folder):
    """Of the sources, and of the proofs: of the crates below the program, and of no other."""
    clone = Clone(folder, b'#!/bin/sh\n')
    clone.expect(Told(0, clone.digest.encode() + b'\n', b''), 'tor', '--sources')
    (clone.root / 'crates.txt').write_text('low: kit # a crate\nmiddle: low\nother: low\ntor: middle other_kit\n')
    counting = ['low', 'middle', 'tor']

    def wanted():
        return [digest_of(clone.root, *kinds, crates=counting) for kinds in (('src', 'specs'), ('proofs',))]

    seen = [wanted()]
    for crate, kind in itertools.product([*counting, 'other'], ['src', 'specs', 'proofs', 'must-fail']):
        place = clone.root / 'crates' / crate / kind / 'deep/x.antt'
        place.parent.mkdir(parents=True)
        place.write_text(f'{crate} {kind}')
        for digest, option in zip(wanted(), ['--sources', '--proofs']):
            clone.expect(Told(0, digest.encode() + b'\n', b''), 'tor', option)
        seen.append(wanted())
        changes = [before != after for before, after in zip(*seen[-2:])]
        expect_equal(f'{crate} {kind}: what is another', [crate in counting and kind in ('src', 'specs'),
                                                          crate in counting and kind == 'proofs'], changes)


def test_proofs_start_no_build(_, folder):
    """Nor does a call go through them; a changed source and a changed definition do start one."""
    good, log = script(folder)
    clone = Clone(folder, good)
    real, called = shutil.which('find'), folder / 'called'
    (folder / 'commands').mkdir()
    (folder / 'commands/find').write_text(f'#!/bin/sh\necho "$*" >>{called}\nexec {real} "$@"\n')
    (folder / 'commands/find').chmod(0o755)
    build = Told(70, b'', b'tor: it has to be built from its sources, and rt is not on the PATH\n')
    change_proofs(clone)
    for note in 'at first', 'once more':
        clone.expect(Told(0, b'', b''), 'tor', note, path=folder / 'commands')
    expect_equal('what find goes through', (True, False),
                 ('crates/tor/src' in called.read_text(), 'proofs' in called.read_text()))
    expect_equal('the runs', ['--version', 'at first', 'once more'], log.read_text().splitlines())
    (clone.root / 'crates/tor/proofs/deep/x.antt').chmod(0)
    clone.expect(Told(0, b'', b''), 'tor', 'one that cannot be read')
    shutil.rmtree(clone.root / 'crates/tor/proofs')
    clone.expect(Told(0, b'', b''), 'tor', 'none')
    for kind in 'specs', 'src':
        place = clone.root / 'crates/tor' / kind / 'x.antt'
        place.parent.mkdir(exist_ok=True)
        place.write_text('')
        clone.expect(build, 'tor', kind)
        place.unlink()
        clone.expect(Told(0, b'', b''), 'tor', 'as it was')


def test_commands_of_a_call(_, folder):
    """If nothing changed it runs find and cmp, once each, and nothing else but the program. If the launcher did, what
    was seen is seen anew."""
    clone = Clone(folder, b'#!/bin/sh\n')
    clone.run('tor', '--version')
    with_seen(clone)
    path, log = commands(folder / 'all'), folder / 'called'
    for place in list((folder / 'all').iterdir()):
        real = os.readlink(place)
        place.unlink()
        place.write_text(f'#!/bin/sh\necho {place.name} >>{log}\nexec {real} "$@"\n')
        place.chmod(0o755)
    clone.expect(Told(0, b'', b''), 'tor', 'check', environment={'PATH': path})
    expect_equal('what was run', ['cmp', 'find'], sorted(log.read_text().split()))
    for name in 'tor', 'dist/launch.sh':
        with_seen(clone)
        log.write_text('')
        rewritten(clone.root / name, (clone.root / name).read_text())
        clone.expect(Told(0, b'', b''), 'tor', 'check', environment={'PATH': path})
        expect_equal(f'{name}: whether it reads again', True, 'sha256sum' in log.read_text())


def test_another_start(_, folder):
    """What another machine saw, or this one before it was started anew, tells nothing of machine and processor."""
    if not Path('/proc/sys/kernel/random/boot_id').exists():
        raise Skipped('the system does not tell one start from another')
    clone = Clone(folder, b'#!/bin/sh\n')
    clone.run('tor', '--version')
    with_seen(clone)
    seen = seen_of(clone)
    where = clone.run('tor', '--where')
    processor = unpacked_processor(clone)
    expect_equal('the processor', True, f'/out/tor.{processor}.{clone.digest}\n'.encode() in where.out)
    other = 'x86-64-v2' if processor == 'x86-64-v3' else 'x86-64-v3'
    (folder / 'commands').mkdir()
    (folder / 'commands/uname').write_text('#!/bin/sh\necho Linux aarch64\n')
    (folder / 'commands/uname').chmod(0o755)
    clone.expect(Told(0, b'', b''), 'tor', 'check', path=folder / 'commands')
    text = seen.read_text()
    expect_equal('the first line', f'{clone.digest} {processor} tor', text.splitlines()[0])
    seen.rename(seen.with_name('seen.00000000-0000-4000-8000-000000000000'))
    refused = Told(70, b'', b'tor: the program is for x86-64 Linux, and this is Linux aarch64\n')
    clone.expect(refused, 'tor', 'check', path=folder / 'commands')
    seen.with_name('seen.00000000-0000-4000-8000-000000000000').write_text(text.replace(processor, other))
    clone.expect(where, 'tor', '--where')
    expect_equal('what this start keeps', text, seen.read_text())
    old = seen.with_name('seen.00000000-0000-4000-8000-000000000000')
    os.utime(old, (time.time() - 40 * 86400,) * 2)
    seen.unlink()
    clone.run('tor', 'check')
    expect_equal('what a month ago was kept', (False, True), (old.exists(), seen.exists()))


def test_ways_of_calling(_, folder):
    """By a link, through a link, by the PATH, by a shell; before and after something was seen, which tells the same."""
    clone = Clone(folder, b'#!/bin/sh\necho "$PWD $*"\n')
    (folder / 'bin/deep').mkdir(parents=True)
    (folder / 'bin/tor').symlink_to('../clone/tor')
    (folder / 'bin/deep/plover').symlink_to(folder / 'bin/tor')
    (folder / 'linked').symlink_to(clone.root / 'docs')
    where = Told(0, f'{clone.root.resolve()}/out/tor.{unpacked_processor(clone)}.{clone.digest}\n'.encode(), b'')
    # Each in this folder, and by these words.
    ways = [(folder, ['bin/tor']), (folder, ['bin/deep/plover']), (folder / 'bin', ['./tor']),
            (folder, ['linked/../tor']), (clone.root / 'docs', ['../tor']), (clone.root, ['./tor']),
            (clone.root, ['sh', 'tor']), (clone.root, ['bash', 'tor']), (folder / 'linked', ['sh', '../tor']),
            (folder, ['env', f'PATH=clone:{PATH}', 'tor']), (folder, ['env', f'PATH=bin:{PATH}', 'tor']),
            (folder, ['env', f'CDPATH=/:{folder}/bin', 'clone/tor'])]
    for is_seen in False, True:
        if is_seen:
            with_seen(clone)
        for place, words in ways:
            if not is_seen:
                shutil.rmtree(clone.root / 'out', ignore_errors=True)
            for option, wanted in ('--where', where), ('check', Told(0, f'{place.resolve()} check\n'.encode(), b'')):
                done = subprocess.run([*words, option], cwd=place, capture_output=True, check=False,
                                      env={**os.environ, 'PATH': PATH, 'PWD': str(place.resolve())})
                expect_told([str(place), *words, option], wanted, Told(done.returncode, done.stdout, done.stderr))


def test_files_of_editors(_, folder):
    """They do not make the sources others; another source does."""
    clone = Clone(folder, b'#!/bin/sh\n')
    for part in 'proofs', 'src', 'specs':
        place = clone.root / 'crates/tor' / part / 'deep'
        place.mkdir(parents=True)
        proofs = digest_of(clone.root, 'proofs')
        for name in ['.x.rt.swp', '.x.antt.swo', 'x.rt~', '#x.antt#', '.#x', '4913', 'x.rt.rej', 'rt']:
            (place / name).write_text('other')
        clone.expect(Told(0, clone.digest.encode() + b'\n', b''), 'tor', '--sources')
        clone.expect(Told(0, proofs.encode() + b'\n', b''), 'tor', '--proofs')
    for name in 'x.rt', 'x.antt':
        (place / name).write_text('')
        expect_equal(name, False, clone.run('tor', '--sources').out.decode() == clone.digest + '\n')
        (place / name).unlink()
    (clone.root / 'crates/tor/src/main.rt').write_text('fn main() {}')
    expect_equal('a byte less', False, clone.run('tor', '--sources').out.decode() == clone.digest + '\n')


def test_built_program(_, folder):
    """What was built from the sources runs if it is as it was built, and others cannot write out/."""
    (good, log), (bad, bad_log) = script(folder), script(folder, 'bad')
    clone = Clone(folder, bad)
    (clone.root / 'dist/built-from').write_text('0' * 64 + '\n')
    (clone.root / 'out').mkdir()
    build = Told(70, b'', b'tor: it has to be built from its sources, and rt is not on the PATH\n')
    processor = unpacked_processor(clone)
    key = f'{processor}.{clone.digest}.{digest_of(clone.root, "proofs")}'
    place = clone.root / 'out' / f'built.{key}'
    place.write_bytes(good)
    place.chmod(0o755)
    clone.expect(build, 'tor', '--from-source', 'check')
    (clone.root / 'out' / f'built.sum.{key}').write_text(hashlib.sha256(good).hexdigest() + '\n')
    clone.expect(Told(0, b'', b''), 'tor', '--from-source', 'check')
    expect_equal('the runs', 'check\n', log.read_text())
    clone.expect(Told(0, os.fsencode(place) + b'\n', b''), 'tor', '--from-source', '--where')
    (clone.root / 'out').chmod(0o777)
    clone.expect(build, 'tor', '--from-source', 'check')
    (folder / 'commands').mkdir()
    (folder / 'commands/rt').write_text('#!/bin/sh\n')
    (folder / 'commands/rt').chmod(0o755)
    told = f'{clone.root}/out is not a folder that only this user can write\n'
    told = f'tor: it has to be built from its sources, and {told}'.encode()
    clone.expect(Told(70, b'', told), 'tor', '--from-source', 'check', path=folder / 'commands')
    (clone.root / 'out').chmod(0o755)
    place.write_bytes(bad)
    clone.expect(build, 'tor', '--from-source', 'check')
    expect_equal('the other was run', False, bad_log.exists())


BUILD = """#!/bin/bash
echo "$1 $4 $5 ${3##*/}" >>%(log)s
mkdir -p "$3"
%(meanwhile)s
printf '#!/bin/sh\\necho built $*\\n' >"$2"
chmod +x "$2"
"""


def test_builds_are_of_the_proofs(_, folder):
    """What is built, and what is proved for it, counts as long as sources and proofs are those; dist/build is another
    here, which proves nothing."""
    clone, log = Clone(folder, b'#!/bin/sh\necho of dist\n'), folder / 'log'
    (folder / 'commands').mkdir()
    (folder / 'commands/rt').write_text('#!/bin/sh\necho kit\n')
    (folder / 'commands/rt').chmod(0o755)
    proof, out = clone.root / 'crates/tor/proofs/main.antt', clone.root / 'out'
    processor = unpacked_processor(clone)
    log.write_text('')

    def write_build(meanwhile=''):
        (clone.root / 'dist/build').write_text(BUILD % {'log': log, 'meanwhile': meanwhile})

    def run(is_built, *words, told='built check\n'):
        """Runs it: whether something is built, which is told of the sources and kept by the proofs."""
        before = len(log.read_text().splitlines())
        came = clone.run('tor', *words, 'check', path=folder / 'commands')
        lines = log.read_text().splitlines()[before:]
        expect_equal('status and output', (0, told), (came.status, came.out.decode()))
        sources, proofs = digest_of(clone.root, 'src', 'specs'), digest_of(clone.root, 'proofs')
        wanted = [(f'{processor} {sources} {proofs}', f'proved.{sources}.{proofs}')] if is_built else []
        expect_equal('what is built', wanted, [tuple(line.rpartition('.')[0].rsplit(' ', 1)) for line in lines])
        if told != 'of dist\n':
            expect_equal('what is kept', sorted(f'built.{sum}{processor}.{sources}.{proofs}' for sum in ('', 'sum.')),
                         sorted(name for name in os.listdir(out) if not name.startswith(('tor.', 'seen.', 'lock'))))

    write_build()
    run(True, '--from-source')
    run(False, '--from-source')
    for text in 'lemma lemma', 'lemma':
        proof.write_text(text)
        run(True, '--from-source')
        run(False, '--from-source')
    run(False, told='of dist\n')
    run(False, '--from-source')
    for kind in 'specs', 'src':
        place = clone.root / 'crates/tor' / kind / 'x.rt'
        place.parent.mkdir(exist_ok=True)
        place.write_text('')
        run(True)
        run(False)
        run(False, '--from-source')
        proof.write_text(kind)
        run(True)
        run(False)
    for meanwhile in f'echo >>{proof}', f'echo >>{proof}; exit 1', f'echo >>{proof}; kill -TERM $PPID; sleep 9':
        kept = sorted(os.listdir(out))
        write_build(meanwhile)
        (clone.root / 'crates/tor/src/x.rt').write_text(meanwhile)
        told = clone.run('tor', '--from-source', 'check', path=folder / 'commands')
        expect_equal(meanwhile, (143 if 'kill' in meanwhile else 70, b'', True),
                     (told.status, told.out, b'tor: the proofs were changed meanwhile\n' in told.err))
        expect_equal('what is left', kept, sorted(os.listdir(out)))
    write_build('exit 1')
    told = clone.run('tor', '--from-source', 'check', path=folder / 'commands')
    expect_equal('that the proofs changed', False, b'meanwhile' in told.err)
    expect_equal('what was proved stays', 1, len(list(out.glob('proved.*'))))
    write_build()
    run(True, '--from-source')


def unpacked_processor(clone):
    """The processor that the launcher finds here."""
    told = subprocess.check_output(['sh', '-c', 'root=; . "$1"; processor', 'sh', clone.root / 'dist/launch.sh'])
    return told.decode().strip()


def shells(folder):
    """Each shell that is here, as the words that run a script by it; bash as sh too."""
    (folder / 'shells').mkdir()
    found = [(shutil.which(name),) for name in ('dash', 'bash') if shutil.which(name)]
    if shutil.which('bash'):
        (folder / 'shells/sh').symlink_to(shutil.which('bash'))
        found.append((folder / 'shells/sh',))
    if shutil.which('busybox'):
        found.append((shutil.which('busybox'), 'sh'))
    return found


def test_environment(program, folder):
    """What a shell or a command takes from the environment changes nothing."""
    clone = Clone(folder, Path(program).read_bytes())
    startup = folder / 'startup'
    startup.write_text('echo startup; exit 9\n')
    names = ['cd', 'find', 'printf', 'read', 'readlink', 'rm', 'sha256sum', 'sed', 'awk', 'test', 'mktemp', 'echo']
    functions = {f'BASH_FUNC_{name}%%': '() { echo other; false; }' for name in [*names, 'umask', 'cmp', 'say', 'tr']}
    options = {'SHELLOPTS': 'noclobber:noglob:nounset:errexit:posix:allexport:monitor',
               'BASHOPTS': 'failglob:nocasematch:xpg_echo', 'CDPATH': f'/:{folder}', 'IFS': '/.a', 'GREP_OPTIONS': '-v',
               'GZIP': '-v', 'LC_ALL': 'C.UTF-8', 'LANG': 'C.UTF-8', 'ENV': str(startup), 'HOME': None,
               'PWD': '/absent', 'OLDPWD': '-', 'proofs': 'x'}
    found = [(), *shells(folder)]
    cases = [options, {**functions, 'POSIXLY_CORRECT': '1'}, {'BASH_VERSION': '5'}]
    runs = [(by, case) for by in found for case in cases]
    # A bash that is called so, and not sh, reads the file before the script.
    runs += [(by, {'BASH_ENV': str(startup)}) for by in found if not by or not str(by[0]).endswith('bash')]
    lines = ''.join(f'{folder}/prefix/{place}\n' for place in PLACES).encode()
    for by, case in runs:
        shutil.rmtree(clone.root / 'out', ignore_errors=True)
        for _ in range(2):
            clone.expect(Told(0, b'tor 1.2.0\n', b''), 'tor', '--version', by=by, environment=case)
        clone.expect(Told(0, clone.digest.encode() + b'\n', b''), 'tor', '--sources', by=by, environment=case)
    # What another build of these sources has proved so far.
    proved = clone.root / f'out/proved.{clone.digest}.{clone.digest}.1'
    proved.mkdir()
    for by, case in runs:
        (clone.root / 'out' / f'tor.{unpacked_processor(clone)}.{clone.digest}').unlink()
        clone.expect(Told(0, b'tor 1.2.0\n', b''), 'tor', '--version', by=by, environment=case)
        expect_equal('that it stays', True, proved.exists())
    with_seen(clone)
    for by, case in runs:
        clone.expect(Told(0, b'tor 1.2.0\n', b''), 'tor', '--version', by=by, environment=case)
    for by, case in runs[::2]:
        shutil.rmtree(folder / 'prefix', ignore_errors=True)
        clone.expect(Told(0, lines, b''), 'dist/install', str(folder / 'prefix'), by=by, environment=case)
        wanted = [hashlib.sha256(Path(file).read_bytes()).hexdigest() for file in (program, ROOT / 'docs/tor.1')]
        expect_equal('the files', wanted, list(digests(folder / 'prefix').values())[:2])
    told = Told(2, b'', b'install: HOME is not set, and no folder is given\n')
    clone.expect(told, 'dist/install', environment={'HOME': None})


def test_names_of_places(program, folder):
    """A clone, and a folder to install in, of any name."""
    wanted = Path(program).read_bytes()
    names = ['a b', '\'"`$x', '*?[a-z]', '-x', 'end\n', '\n', 'back\\nslash\\c', '#~%s%n', '\xe4']
    for number, name in enumerate(names):
        clone = Clone(folder / str(number), wanted)
        clone.root = clone.root.rename(folder / str(number) / name)
        where = os.fsencode(clone.root / 'out')
        for by in ((), ('sh',), ('bash',), ('busybox', 'sh'))[:4 if shutil.which('busybox') else 3]:
            clone.expect(Told(0, b'tor 1.2.0\n', b''), 'tor', '--version', by=by)
        told = clone.run('tor', '--where')
        expect_equal(f'where in {name!r}', (0, where, b''), (told.status, told.out.rpartition(b'/')[0], told.err))
        for place, words in (clone.root, ['./tor']), (clone.root.parent, [os.path.join(name, 'tor')]):
            done = subprocess.run([*words, '--version'], cwd=place, executable=words[0], capture_output=True,
                                  check=False, env={**os.environ, 'PATH': PATH})
            expect_equal(f'{words} in {place}', (0, b'tor 1.2.0\n', b''), (done.returncode, done.stdout, done.stderr))
        prefix = clone.root / 'prefix'
        lines = b''.join(os.fsencode(prefix / place) + b'\n' for place in PLACES)
        clone.expect(Told(0, lines, b''), 'dist/install', str(prefix))
        expect_equal('the program', True, (prefix / 'bin/tor').read_bytes() == wanted)
        clone.root.rename(clone.root.parent / 'clone')
        clone.root = clone.root.parent / 'clone'


def commands(folder, of=None):
    """A folder with links to the commands of the PATH, or of busybox."""
    folder.mkdir()
    if of:
        for name in subprocess.check_output([of, '--list'], text=True).split():
            (folder / name).symlink_to(of)
    else:
        for place in reversed(PATH.split(':')):
            for name in os.listdir(place) if os.path.isdir(place) else []:
                (folder / name).unlink(missing_ok=True)
                (folder / name).symlink_to(os.path.join(place, name))
    return str(folder)


def test_command_that_is_missing(program, folder):
    """One line names it; what was unpacked needs few."""
    clone = Clone(folder, Path(program).read_bytes())
    path = commands(folder / 'all')
    names = 'awk cut date find gzip head mktemp od sed sha256sum sort tr uname'
    for name in names.split():
        place = folder / 'all' / name
        place.rename(folder / 'kept')
        told = Told(70, b'', b'tor: %s is not on the PATH\n' % name.encode())
        clone.expect(told, 'tor', '--version', environment={'PATH': path})
        clone.expect(told, 'dist/install', str(folder / 'prefix'), environment={'PATH': path})
        (folder / 'kept').rename(place)
    expect_equal('what is left', ([], []), clone.left())
    clone.expect(Told(0, b'tor 1.2.0\n', b''), 'tor', '--version', environment={'PATH': path})
    (folder / 'all/gzip').unlink()
    clone.expect(Told(0, b'tor 1.2.0\n', b''), 'tor', '--version', environment={'PATH': path})


def test_busybox_alone(program, folder):
    """All commands are those of busybox, which has no `find -printf`."""
    if not shutil.which('busybox'):
        raise Skipped('it needs busybox')
    clone = Clone(folder, Path(program).read_bytes())
    path = commands(folder / 'all', of=shutil.which('busybox'))
    by = (shutil.which('busybox'), 'sh')
    (clone.root / 'crates/tor/specs').mkdir()
    for wait in 0, 3.1, 0:
        time.sleep(wait)
        clone.expect(Told(0, b'tor 1.2.0\n', b''), 'tor', '--version', by=by, environment={'PATH': path})
    seen = next((clone.root / 'out').glob('seen.*'))
    seen.write_text(seen.read_text().replace(clone.digest, '0' * 64, 1))
    build = Told(70, b'', b'tor: it has to be built from its sources, and bash is not on the PATH\n')
    clone.expect(build, 'tor', '--version', by=by, environment={'PATH': path})
    (clone.root / 'crates/tor/src/a.rt').write_text('')
    clone.expect(build, 'tor', '--version', by=by, environment={'PATH': path})
    (clone.root / 'crates/tor/src/a.rt').unlink()
    seen.unlink()
    clone.expect(Told(0, b'tor 1.2.0\n', b''), 'tor', '--version', by=by, environment={'PATH': path})
    time.sleep(3.1)
    for content, wanted in (None, Told(0, b'tor 1.2.0\n', b'')), ('fn main() { }', build):
        if content:
            rewritten(clone.root / 'crates/tor/src/main.rt', content)
        clone.expect(wanted, 'tor', '--version', by=by, environment={'PATH': path})
    (clone.root / 'HANDLES').unlink()
    told = Told(70, b'', b'tor: the sources cannot be read\n')
    clone.expect(told, 'tor', '--version', by=by, environment={'PATH': path})


def test_without_proc(program, folder):
    """The program for the older processor runs, from out/ and from a folder for this run, which goes."""
    by = ('unshare', '--mount', '--propagation', 'private', 'sh', '-c',
          'mount -t tmpfs tmpfs /proc && exec "$@"', 'sh')
    if not shutil.which('unshare') or subprocess.run([*by, 'true'], capture_output=True, check=False).returncode:
        raise Skipped('it needs root, and unshare')
    clone = Clone(folder, Path(program).read_bytes())
    told = clone.run('tor', '--where', by=by)
    expect_equal('the program', (0, b'tor.x86-64-v2.', b''), (told.status, told.out.split(b'/')[-1][:14], told.err))
    clone.expect(Told(0, b'tor 1.2.0\n', b''), 'tor', '--version', by=by)
    time.sleep(3.1)
    clone.expect(Told(0, b'tor 1.2.0\n', b''), 'tor', '--version', by=by)
    expect_equal('what was seen', [clone.root / 'out/seen.x86-64-v2'], list((clone.root / 'out').glob('seen.*')))
    reads = Reads(folder)
    told = clone.run('tor', '--version', by=by, path=reads.path)
    expect_equal('nothing changed', (b'tor 1.2.0\n', False), (told.out, reads.log.exists()))
    (reads.path / 'uname').write_text('#!/bin/sh\necho Linux aarch64\n')
    (reads.path / 'uname').chmod(0o755)
    told = Told(70, b'', b'tor: the program is for x86-64 Linux, and this is Linux aarch64\n')
    clone.expect(told, 'tor', '--version', by=by, path=reads.path)
    clone.out_of_reach()
    clone.expect(Told(1, b'', b'tor: N3 DotDot\n'), 'tor', 'make', '--name', '..', by=by, data=b'ab')
    expect_equal('temporary files', [], os.listdir(clone.temporary))


def test_temporary_folder(program, folder):
    """TMPDIR that is not set, relative, or not there, if out/ cannot be made."""
    clone = Clone(folder, Path(program).read_bytes())
    clone.out_of_reach()
    for number, name in enumerate(['relative', '.', '-x', 'a b', 'end\n']):
        where = folder / f'in {number}'
        (where / name).mkdir(parents=True)
        clone.expect(Told(0, b'tor 1.2.0\n', b''), 'tor', '--version', where=where, environment={'TMPDIR': name})
        expect_equal('what is left', [], [place for place in where.rglob('*') if not place.is_dir()])
        told = clone.run('tor', '--where', where=where, environment={'TMPDIR': name})
        expect_equal('where', True, os.path.isabs(told.out) and os.access(told.out[:-1], os.X_OK))
        shutil.rmtree(where)
        (where / name).mkdir(parents=True)
        expect_equal('installing', 0, clone.run('dist/install', str(folder / 'prefix'), where=where,
                                                environment={'TMPDIR': name}).status)
        expect_equal('what is left', [], [place for place in where.rglob('*') if not place.is_dir()])
    for value in None, '':
        clone.expect(Told(0, b'tor 1.2.0\n', b''), 'tor', '--version', environment={'TMPDIR': value})
    told = f'tor: neither {clone.root}/out nor {folder}/absent can be written\n'.encode()
    clone.expect(Told(70, b'', told), 'tor', '--version', environment={'TMPDIR': f'{folder}/absent'})
    (clone.root / 'out').unlink()
    (clone.root / 'out').mkdir()
    (clone.root / 'out').chmod(0o777)
    told = f'{clone.root}/out is not a folder that only this user can write, and {folder}/absent cannot be written\n'
    told = f'tor: {told}'.encode()
    clone.expect(Told(70, b'', told), 'tor', '--version', environment={'TMPDIR': f'{folder}/absent'})


def digests(prefix):
    return {place: hashlib.sha256((prefix / place).read_bytes()).hexdigest() for place in PLACES}


def test_install(program, folder):
    """All five files, again over themselves, and away; no file of another is replaced or removed."""
    clone = Clone(folder, Path(program).read_bytes())
    prefix = folder / 'prefix'
    lines = ''.join(f'{prefix}/{place}\n' for place in PLACES).encode()
    for _ in range(2):
        clone.expect(Told(0, lines, b''), 'dist/install', str(prefix))
        wanted = [program, ROOT / 'docs/tor.1', *(ROOT / 'dist/completions' / name for name in ['tor.bash', '_tor',
                                                                                                'tor.fish'])]
        expect_equal('the files', [hashlib.sha256(Path(file).read_bytes()).hexdigest() for file in wanted],
                     list(digests(prefix).values()))
    clone.expect(Told(0, b''.join(b'removed ' + line + b'\n' for line in lines.splitlines()), b''), 'dist/install',
                 '--remove', str(prefix))
    expect_equal('files left', [], [path for path in prefix.rglob('*') if not path.is_dir()])
    (prefix / 'bin' / 'tor').write_bytes(b'of another')
    told = b'%s/bin/tor is there, and was not put there by dist/install\n' % os.fsencode(prefix)
    clone.expect(Told(1, b'', b'install: ' + told), 'dist/install', str(prefix))
    told = b'%s/bin/tor was not put there by dist/install, and stays\n' % os.fsencode(prefix)
    clone.expect(Told(1, b'', b'install: ' + told), 'dist/install', '--remove', str(prefix))
    expect_equal('files left', [prefix / 'bin' / 'tor'], [path for path in prefix.rglob('*') if not path.is_dir()])
    expect_equal('its bytes', b'of another', (prefix / 'bin' / 'tor').read_bytes())


def tree_below(folder):
    """What is below a folder: folders, and what files have and links lead to."""
    def content(path):
        return os.readlink(path) if path.is_symlink() else path.is_dir() or path.read_bytes()
    return {str(path.relative_to(folder)): content(path) for path in folder.rglob('*')}


# Plants a link to a file of another beside each place, as the number of the process is known that then installs.
PLANT = """
for place in $PLACES; do
    mkdir -p "$PREFIX/${place%/*}"
    ln -s "$PREFIX/../victim" "$PREFIX/$place.new.$$"
done
exec "$@"
"""


def test_install_writes_through_no_link(program, folder):
    """Links beside the places stay, and what they lead to; of folders that it made beside them none is left. By each
    shell that is here."""
    clone, prefix, victim = Clone(folder, Path(program).read_bytes()), folder / 'prefix', folder / 'victim'
    victim.write_bytes(b'of another')
    places = [*PLACES, 'share/plovercasket/installed']
    variables = {'PREFIX': str(prefix), 'PLACES': ' '.join(places)}
    lines = ''.join(f'{prefix}/{place}\n' for place in PLACES).encode()
    clone.run('tor', '--version')
    for by in [(), *shells(folder)]:
        clone.expect(Told(0, lines, b''), 'dist/install', str(prefix), by=('sh', '-c', PLANT, 'sh', *by),
                     environment=variables)
        expect_equal('the program', True, (prefix / 'bin/tor').read_bytes() == Path(program).read_bytes())
        expect_equal('the rights of the program and of the others', [0o755, *[0o644] * 5],
                     [(prefix / place).stat().st_mode & 0o7777 for place in places])
        expect_equal('what the links lead to', (b'of another', 0o644),
                     (victim.read_bytes(), victim.stat().st_mode & 0o7777))
        links = {place: target for place, target in tree_below(prefix).items() if isinstance(target, str)}
        expect_equal('the links', [str(prefix / '../victim')] * 6, list(links.values()))
        files = {place for place, content in tree_below(prefix).items() if content is not True}
        expect_equal('what is left', {*places, *links}, files)
        expect_equal('folders that were made aside', [], list(prefix.rglob('.*')))
        shutil.rmtree(prefix)


# Another has put a link in place of the folder that was just made.
LINKING = """#!/bin/sh
made=$(%s "$@") || exit
case $made in */.installing.*) rmdir "$made" && ln -s %s "$made" ;; esac
echo "$made"
"""


def test_install_into_no_folder_of_another(program, folder):
    """If the folder in which it writes was exchanged, nothing is written: neither in a folder that others can write,
    nor over what is there."""
    clone, prefix, other = Clone(folder, Path(program).read_bytes()), folder / 'prefix', folder / 'other'
    (folder / 'commands').mkdir()
    (folder / 'commands/mktemp').write_text(LINKING % (shutil.which('mktemp'), other))
    (folder / 'commands/mktemp').chmod(0o755)
    told = Told(1, b'', f'install: {prefix}/bin/tor cannot be written\n'.encode())
    for mode, files in (0o777, []), (0o755, ['file']):
        other.mkdir()
        for name in files:
            (other / name).write_bytes(b'of another')
        other.chmod(mode)
        before = tree_below(other)
        clone.expect(told, 'dist/install', str(prefix), path=folder / 'commands')
        expect_equal('what the other has', before, tree_below(other))
        expect_equal('what is left', {'bin': True}, tree_below(prefix))
        shutil.rmtree(other)


def test_install_over_links(program, folder):
    """A link at a place is one of another, and a record that is one tells nothing of what it leads to."""
    clone, prefix, victim = Clone(folder, Path(program).read_bytes()), folder / 'prefix', folder / 'victim'
    (prefix / 'bin').mkdir(parents=True)
    (prefix / 'share/plovercasket').mkdir(parents=True)
    victim.write_bytes(b'of another\n')
    for target, told in [(victim, 'is there, and was not put there by dist/install'), (folder, 'is a folder'),
                         (folder / 'absent', 'is there, and was not put there by dist/install')]:
        (prefix / 'bin/tor').symlink_to(target)
        clone.expect(Told(1, b'', f'install: {prefix}/bin/tor {told}\n'.encode()), 'dist/install', str(prefix))
        expect_equal('the link', str(target), os.readlink(prefix / 'bin/tor'))
        (prefix / 'bin/tor').unlink()
    record = prefix / 'share/plovercasket/installed'
    record.symlink_to(victim)
    told = Told(1, b'', f'install: {record} is a link, which dist/install does not make\n'.encode())
    for words in [], ['--remove']:
        clone.expect(told, 'dist/install', *words, str(prefix))
    expect_equal('what is there', {'share/plovercasket/installed'},
                 {place for place, content in tree_below(prefix).items() if content is not True})
    expect_equal('what it leads to', b'of another\n', victim.read_bytes())


# A script, words that it does not take, and what it tells of them.
WORDS = [('dist/install', ['--foo'], "install: unexpected option '--foo'"),
         ('dist/install', ['a', 'b'], "install: unexpected argument 'b'"),
         ('dist/package', ['--foo'], "package: unexpected argument '--foo'"),
         ('dist/package', ['a', 'b'], "package: unexpected argument 'b'"),
         ('dist/make', ['--foo'], "make: unexpected option '--foo'"),
         ('dist/make', ['a', 'b'], "make: unexpected argument 'b'"),
         ('dist/make', ['--check'], 'make: a tree is to follow --check'),
         ('dist/make', ['--check', 'a', 'b', 'c'], "make: unexpected argument 'c'"),
         ('dist/same-words', ['--foo'], 'usage: dist/same-words PROGRAM'),
         ('docs/options', ['--foo'], 'usage: docs/options [--check]'),
         ('wrong/run', ['--foo'], "run: no crate '--foo' has wrong bodies"),
         ('wrong/run', ['tests', '0'], 'wrong/run tests: error: no such build: 0'),
         ('wrong/run', ['--together', 'a'], 'wrong/run --together: error: no such edits: a'),
         ('wrong/run', ['--compiles', 'a'], 'wrong/run --compiles: error: no such crate: a'),
         ('tests/run', ['--foo'], 'run: error: unrecognized arguments: --foo'),
         ('tests/run', ['absent'], "run: no test 'absent'")]


def test_words_of_scripts(_, folder):
    """Each prints a line of usage, and refuses other words; no file is made."""
    timed = [str(place.relative_to(ROOT)) for place in (ROOT / 'bench').iterdir() if os.access(place, os.X_OK)]
    for name in sorted({*(name for name, _, _ in WORDS), *(name for name in timed if '.' not in name)}):
        for word in '-h', '--help':
            done = subprocess.run([ROOT / name, word], capture_output=True, text=True, check=False, cwd=folder)
            expect_equal(f'{name} {word}', (0, 'usage: ', ''), (done.returncode, done.stdout[:7], done.stderr))
    for name, words, line in [*WORDS, *((name, ['--foo', 'a', 'b', 'c', 'd'], 'usage: ') for name in timed)]:
        done = subprocess.run([ROOT / name, *words], capture_output=True, text=True, check=False, cwd=folder)
        expect_equal(f'{name} {words}: status, output and whether that line is told', (2, '', True),
                     (done.returncode, done.stdout, line in done.stderr))
    expect_equal('what is left', [], os.listdir(folder))


def test_install_as_another_name(program, folder):
    """Man page and completions have the name, but for what the program prints; two names stand beside one another, and
    each goes by itself."""
    clone = Clone(folder, Path(program).read_bytes())
    prefix = folder / 'prefix'
    clone.expect(Told(0, b''.join(b'%s/%s\n' % (os.fsencode(prefix), place.encode()) for place in PLACES), b''),
                 'dist/install', str(prefix))
    other = [place.replace('tor', 'plover') for place in PLACES]
    clone.expect(Told(0, b''.join(b'%s/%s\n' % (os.fsencode(prefix), place.encode()) for place in other), b''),
                 'dist/install', '--as', 'plover', str(prefix))
    page = (prefix / 'share/man/man1/plover.1').read_text()
    for line in ['.TH PLOVER 1 ', 'plover \\- make', '\\fBplover make', '.B plover\n', 'with \\fBtor:\\fR',
                 "'tor make"]:
        expect_equal(f'{line} in the man page', True, line in page)
    expect_equal('complete', 'complete -F _tor plover',
                 (prefix / 'share/bash-completion/completions/plover').read_text().splitlines()[-1])
    told = b''.join(b'removed %s/%s\n' % (os.fsencode(prefix), place.encode()) for place in PLACES)
    clone.expect(Told(0, told, b''), 'dist/install', '--remove', str(prefix))
    expect_equal('files left', sorted([*other, 'share/plovercasket/installed']),
                 sorted(str(path.relative_to(prefix)) for path in prefix.rglob('*') if not path.is_dir()))
    told = b''.join(b'removed %s/%s\n' % (os.fsencode(prefix), place.encode()) for place in other)
    clone.expect(Told(0, told, b''), 'dist/install', '--remove', '--as=plover', str(prefix))
    expect_equal('files left', [], [path for path in prefix.rglob('*') if not path.is_dir()])
    for name in ['', 'a b', 'A', '-x', '../x']:
        told = b'install: a name has small letters, digits and hyphens, and begins with a letter\n'
        clone.expect(Told(2, b'', told), 'dist/install', f'--as={name}', str(prefix))


def test_install_beside_another_program(program, folder):
    """Another program of the name is told of, whether it comes first on the PATH or after this one."""
    clone = Clone(folder, Path(program).read_bytes())
    prefix, before, after = folder / 'prefix', folder / 'before', folder / 'after'
    for place in before, after:
        place.mkdir()
        (place / 'tor').write_text('#!/bin/sh\n')
        (place / 'tor').chmod(0o755)
    told = clone.run('dist/install', str(prefix), path=f'{before}:{prefix}/bin:{after}')
    wanted = (f'install: {before}/tor is another program, and comes first on the PATH\n'
              f'install: {after}/tor is another program, which this one comes before on the PATH\n').encode()
    expect_equal('what is told', (0, wanted), (told.status, told.err))


def test_packages(program, folder):
    """The same bytes each time; the archive's installer puts the program that it has."""
    wanted = Path(program).read_bytes()
    for place in 'one', 'two':
        subprocess.run([ROOT / 'dist/package', folder / place], check=True, stdout=subprocess.DEVNULL)
    made = sorted(path.name for path in (folder / 'one').iterdir())
    expect_equal('the packages', ['libplovercasket-dev_1.2.0_amd64.deb', 'libplovercasket1_1.2.0_amd64.deb',
                                  'plovercasket-1.2.0-x86_64-linux.tar.gz', 'plovercasket_1.2.0_amd64.deb'], made)
    dev, library, archive, package = made
    for name in made:
        expect_equal(name, True, (folder / 'one' / name).read_bytes() == (folder / 'two' / name).read_bytes())
    subprocess.run(['tar', '-xzf', folder / 'one' / archive, '-C', folder], check=True)
    unpacked = folder / archive.removesuffix('.tar.gz')
    subprocess.run([unpacked / 'install', folder / 'prefix'], check=True, stdout=subprocess.DEVNULL)
    packed = {path.read_bytes() for path in (unpacked / 'programs').iterdir()}
    expect_equal('the program is in the archive', True, (folder / 'prefix/bin/tor').read_bytes() in packed)
    dead = [(page.name, target) for page in [*unpacked.glob('*.md'), *unpacked.glob('docs/*.md')]
            for target in re.findall(r'\]\(([^)#:]+)(?:#[^)]*)?\)', page.read_text(encoding='utf-8'))
            if not (page.parent / target).exists()]
    expect_equal('links to what the archive does not have', [], dead)
    expect_equal('its version', b'tor 1.2.0\n', subprocess.check_output([folder / 'prefix/bin/tor', '--version']))
    listed = subprocess.check_output(['dpkg-deb', '-c', folder / 'one' / package]).split()
    expect_equal('the command', True, b'./usr/bin/plovercasket' in listed and wanted != b'')
    subprocess.run(['dpkg-deb', '-x', folder / 'one' / package, folder / 'package'], check=True)
    changes = gzip.decompress((folder / 'package/usr/share/doc/plovercasket/changelog.gz').read_bytes()).splitlines()
    ends = [line for line in changes if line.startswith(b' -- ')]
    expect_equal('how many changes have a date', len(ends), sum(line.endswith(b' 00:00:00 +0000') for line in ends))
    expect_library(folder, [folder / 'one' / library, folder / 'one' / dev])


def expect_library(folder, packages):
    """The packages of the library have what a program in C or Python asks for."""
    for package in packages:
        subprocess.run(['dpkg-deb', '-x', package, folder / 'system'], check=True)
    usr, shipped = folder / 'system' / 'usr', ROOT / 'dist' / 'library'
    libraries = usr / 'lib' / 'x86_64-linux-gnu'
    for name, place in [('plovercasket.h', usr / 'include' / 'plovercasket.h'),
                        ('libplovercasket.a', libraries / 'libplovercasket.a'),
                        ('libplovercasket.so', libraries / 'libplovercasket.so.1'),
                        ('plovercasket.py', usr / 'lib' / 'python3' / 'dist-packages' / 'plovercasket.py')]:
        expect_equal(name, True, place.read_bytes() == (shipped / name).read_bytes())
    expect_equal('the name for linking', 'libplovercasket.so.1', os.readlink(libraries / 'libplovercasket.so'))
    told = (libraries / 'pkgconfig' / 'plovercasket.pc').read_text()
    expect_equal('the version', True, 'Version: 1.2.0\n' in told and '/x86_64-linux-gnu\n' in told)
