"""What files sum up to, whoever hashes them and however they are read: rows worked out from BEP 3 and BEP 52, each hash
in hexadecimal as Python's hashlib told it; and what is asked of the files."""
from itertools import product

from contents import (
    BLOCK, FILLED_AB, FILLED_C, FIVE_BY_TWO, L0, L1, L2, LAST_OF_7232, LAST_OF_ONE, LEAVES, OF_40000, OF_AB, OF_C,
    OF_FIVE_BLOCKS, OF_THREE_BLOCKS, OF_TWO_BLOCKS, P0, ROOT_OF_18, SUM_OF_AB, SUM_OF_ABC, SUM_OF_C, content, hashes,
    torrent_of)
from faults import READ, traced
from reference import decode, layer_of, leaves, root_of
from refuser import ALL_LATER, Meet, Refuser, built
from support import Failure, Told, done, expect, expect_equal, expect_told, preloadable, refused
from workers import reads_at_once

# Each way to share the work, by one worker, two and the most; and the number of readers behind a stream.
SHARED = [('one', 1), ('halves', 1), ('halves', 2), ('halves', 64), ('board', 1), ('board', 2), ('board', 64)]
STREAMS = [('streams', 1), ('streams', 2), ('streams', 64)]

# The SHA-1 of each block of a content of seventeen blocks and a byte; of the third block and the fourth of contents of
# 40,000 and of 16,384 bytes, joined; and of the third where zeros fill it.
SUMS_OF_18 = hashes('''
    68f3b81a11de1e1629e81555b4e70aed955d1140 de9ee0222cd528efc5e01227e4bf16cf6ac6836a
    8b838c28e8ca3787c8b0fdaad3931ea3a8f29038 2d8d1f18379a9e19a274f8cba1280087fdfce210
    7cd6c7a52ed9ac526078436246084f8e2c42019c 7e7778a53029904b144fdbb81ed1a46131caa4dc
    b5d7ce840ac2fcaa0082551a34130b869092a0ce 427a832a3c6b2807ab2fe9bdee865b95d64d091a
    c8e9de149600fcc1adeec7c93f051de01592420a df585ddb3f2d6aec5934d9078581158e891ffc00
    7885ac6e5549101a92a878eab20bf6035c491a4d 4f3f0b094e0b1becc31fc2cf7077b677917a925b
    2d194c2b84ad46ecfd65447519e58c170bc30693 fc5edc12e90d614c5006ee6f29d405c3dba22815
    61c904f1a224613a9a802ee345d19bc645a2bcab 46ccfbf29168e0ed6f7c04ac683598719a0bc37d
    528c0734502072baa3bb469060b14d79023dd983 19da91f2603889267dfd77786e07a5b8f067d62a
''', 20)
THIRD, FOURTH, FILLED_THIRD = hashes('''
    0759c615d68c5e1034156f33517abb786e00b3f0 9008b667a068a2b8a62f188f7915c48c5e683524
    360f932f617e5929e5a7b39e39f81653b6f7006e
''', 20)
LONG_V1 = b''.join(SUMS_OF_18[:2] + [THIRD, FOURTH])
LONG_HYBRID = b''.join(SUMS_OF_18[:2] + [FILLED_THIRD, SUMS_OF_18[0]])
NO_LAYERS = [[], [], []]
OF_LONG, LAYERS_OF_LONG = [OF_40000, None, L0], [[L0, L1, LAST_OF_7232], [], []]
SMALL, LONG = [b'ab', b'', b'c'], [content(40_000), b'', content(16_384)]
LAST = [content(17 * BLOCK + 1)]

# The kind, the length of a piece, how many pieces a unit has in turn, the contents, the root and the layer of each, and
# the SHA-1 of the pieces.
SUMS_OF_SMALL = [
    ('v1', BLOCK, [1, 2], SMALL, [None] * 3, NO_LAYERS, SUM_OF_ABC),
    ('v2', BLOCK, [1, 2], SMALL, [OF_AB, None, OF_C], NO_LAYERS, b''),
    ('hybrid', BLOCK, [1, 2], SMALL, [OF_AB, None, OF_C], NO_LAYERS, FILLED_AB + SUM_OF_C)]
SUMS = SUMS_OF_SMALL + [
    ('v1', BLOCK, [1, 2, 4], LONG, [None] * 3, NO_LAYERS, LONG_V1),
    ('v2', BLOCK, [1, 2, 4], LONG, OF_LONG, LAYERS_OF_LONG, b''),
    ('hybrid', BLOCK, [1, 2, 4], LONG, OF_LONG, LAYERS_OF_LONG, LONG_HYBRID),
    # A file of one block, of a block and a byte, of one piece of two blocks, of three blocks, and of five by two.
    ('v2', BLOCK, [1, 2], [content(16_384)], [L0], [[]], b''),
    ('v2', BLOCK, [1, 2], [content(16_385)], [OF_TWO_BLOCKS], [[L0, LAST_OF_ONE]], b''),
    ('v2', 2 * BLOCK, [1, 2], [content(32_768)], [P0], [[]], b''),
    ('v2', BLOCK, [1, 2], [content(49_152)], [OF_THREE_BLOCKS], [[L0, L1, L2]], b''),
    ('v2', 2 * BLOCK, [1, 2], [content(81_920)], [OF_FIVE_BLOCKS], [FIVE_BY_TWO], b''),
    # Eight blocks and pieces that lie one after another are hashed together.
    ('v1', BLOCK, [16], LAST, [None], [[]], b''.join(SUMS_OF_18)),
    ('v2', BLOCK, [16], LAST, [ROOT_OF_18], [LEAVES], b''),
    ('hybrid', BLOCK, [16], LAST, [ROOT_OF_18], [LEAVES], b''.join(SUMS_OF_18))]


def files_of(contents):
    return [((b'%03d' % number,), data) for number, data in enumerate(contents)]


def lay_out(place, contents):
    place.mkdir()
    for (name,), data in files_of(contents):
        (place / name.decode()).write_bytes(data)


def words_of(kind, piece_length, span, how, workers, place, *more):
    return ['make', '--name', 'f', '--kind', kind, '--piece-length', str(piece_length), '--span', str(span), '--how',
            how, '--workers', str(workers), *more, str(place)]


def test_sums(program, folder):
    for number, (kind, piece_length, spans, contents, roots, layers, pieces) in enumerate(SUMS):
        place = folder / str(number)
        lay_out(place, contents)
        wanted = done(torrent_of(kind, files_of(contents), roots, layers, pieces, piece_length))
        for span, (how, workers) in product(spans, SHARED + STREAMS):
            expect(program, words_of(kind, piece_length, span, how, workers, place), wanted)


def expect_short(refuser, words, wanted, most):
    """That it ends so where no read gives more bytes."""
    told = refuser.run(words, Meet(short=most))
    expect_told(words, wanted, Told(*told[:3]), f'at most {most} bytes a read\n')


def test_sums_of_short_reads(program, folder):
    refuser = Refuser(program, folder)
    for number, (kind, piece_length, spans, contents, roots, layers, pieces) in enumerate(SUMS_OF_SMALL):
        place = folder / str(number)
        lay_out(place, contents)
        wanted = done(torrent_of(kind, files_of(contents), roots, layers, pieces, piece_length))
        for span, (how, workers), most in product(spans, SHARED + STREAMS, [1, 7]):
            expect_short(refuser, words_of(kind, piece_length, span, how, workers, place), wanted, most)


# The contents of files that are read once, each of at most a block, and the SHA-1 of their pieces in a hybrid: without
# a tail, and with one.
AB_C, AB_C_TAIL = FILLED_AB + SUM_OF_C, FILLED_AB + FILLED_C
READ_ONCE = [
    ([b'ab', b'c'], AB_C, AB_C_TAIL), ([b'ab', b'', b'c'], AB_C, AB_C_TAIL),
    ([b'', b'ab', b'', b'', b'c', b''], AB_C, AB_C_TAIL),
    # No byte follows, and so no padding but a tail.
    ([b'ab', b''], SUM_OF_AB, FILLED_AB), ([b'', b'', b'ab'], SUM_OF_AB, FILLED_AB), ([b'', b''], b'', b'')]
ROOTS = {b'': None, b'ab': OF_AB, b'c': OF_C}


def test_streams(program, folder):
    """Of many bytes a read, and of one; and as version 1, where a tail changes nothing."""
    refuser = Refuser(program, folder)
    for number, (contents, *sums) in enumerate(READ_ONCE):
        place, files = folder / str(number), files_of(contents)
        lay_out(place, contents)
        for pieces, more, workers in [(pieces, more, workers) for pieces, more in zip(sums, [[], ['--tail']])
                                      for workers in [1, 2, 64]]:
            words = words_of('hybrid', BLOCK, 1, 'streams', workers, place, *more)
            roots = [ROOTS[data] for data in contents]
            wanted = done(torrent_of('hybrid', files, roots, [[] for _ in files], pieces, tail=bool(more)))
            for most in [1, 65_536]:
                expect_short(refuser, words, wanted, most)
    lay_out(folder / 'joined', [b'ab', b'c'])
    for workers in [1, 2, 64]:
        wanted = done(torrent_of('v1', files_of([b'ab', b'c']), [], [], SUM_OF_ABC))
        expect_short(refuser, words_of('v1', BLOCK, 16, 'streams', workers, folder / 'joined', '--tail'), wanted, 1)
    # That a read gives a byte is seen by how many there are.
    words = words_of('v1', BLOCK, 1, 'streams', 1, folder / 'joined')
    met = refuser.run(words, Meet('r', 1, ALL_LATER, 'tell', short=1)).met
    of_ab = [one for one in met if one.place == str(folder / 'joined' / '000')]
    expect_equal('whether two bytes are two reads, and the end', True, len(of_ab) >= 3)


def test_trees_of_streams(program, folder):
    """Of a file of six blocks between an empty one and a short one, and of three blocks in pieces of two."""
    refuser, data = Refuser(program, folder), content(81_927)
    contents, layer = [b'', data, b'ab'], leaves(data)
    lay_out(folder / 'six', contents)
    wanted = done(torrent_of('v2', files_of(contents), [None, root_of(layer), OF_AB], [[], layer, []], b''))
    for span, workers in [(1, 1), (1, 3), (2, 2), (4, 64), (8, 2), (1024, 2)]:
        expect_short(refuser, words_of('v2', BLOCK, span, 'streams', workers, folder / 'six'), wanted, 5000)
    data = content(40_000)
    lay_out(folder / 'three', [data])
    layer = layer_of(data, 2 * BLOCK)
    wanted = done(torrent_of('v2', files_of([data]), [root_of(layer, 1)], [layer], b'', 2 * BLOCK))
    for span in [1, 2, 1024]:
        expect_short(refuser, words_of('v2', 2 * BLOCK, span, 'streams', 2, folder / 'three'), wanted, 65_536)


# The root and the layer of a content of 5,000,000 bytes in pieces of 1 MiB, the root of one of 1,000,003, and the SHA-1
# of their pieces in a hybrid.
MEGABYTES = hashes('22fc086d9d131dbde1cfcf6073d45b0e610115a120dbc9cb309ce048e75d57f3')[0], hashes('''
    cedf940612ac628d0e1eb980ad20f8cc17ea41c89b5f50e0afec0e1cc5c2d997
    0a7388728b4616aa60a53d5df3958200377f2bd6f6ac9a442f00f5336bf988e3
    1f3465c539ec465f7d802875991223bb143a698bfb593bd842e287641c8b75bf
    08ddfeb98cd96dcb56c35b2b58e40f429a5181349c0590e326c8dc3e85baddc0
    76732c8b392611a2363774f5a25e66df9f1d2f9f295e6732a78ba1eb294d94a0
'''), hashes('c9cc20bff063dd0833c0fec39507006d1f470d0ed5ac784ce7b330ca65f73ef0')[0], bytes.fromhex('''
    c2fc4cb20f1301a6b0dd211c19e69a13925dbe40 cd87 2c47ea652b64abda1123e43abef5bf287240
    95bde44509d9b17f2766bdbb2cda4b71f8a6db6c 88938bd994c85d53c9b42b39baa14e1a03a25aae
    73d32b678f6798c15ea1e9d5633dc87da756db84 eb4a3e325711129d4b9bfac448d530e7c03265fe''')


def test_megabytes(program, folder):
    refuser, contents = Refuser(program, folder), [content(5_000_000), content(1_000_003)]
    lay_out(folder / 'files', contents)
    long_root, layer, short_root, pieces = MEGABYTES
    wanted = done(torrent_of('hybrid', files_of(contents), [long_root, short_root], [layer, []], pieces, 1 << 20))
    for span, workers in [(1, 1), (1, 4), (2, 64), (16, 2)]:
        expect_short(refuser, words_of('hybrid', 1 << 20, span, 'streams', workers, folder / 'files'), wanted, 65_536)


def test_a_fault_of_a_reader(program, folder):
    """Of three files, the second fails after its three bytes: the reason is told that the system gave."""
    place, log = folder / 'files', folder / 'log'
    lay_out(place, [b'', b'abc', b'd'])
    for error, reason in [('EINTR', 'Interrupted system call (os error 4)'),
                          ('EIO', 'Input/output error (os error 5)'),
                          ('EAGAIN', 'Resource temporarily unavailable (os error 11)')]:
        for workers in [1, 2, 64]:
            words = words_of('hybrid', BLOCK, 1, 'streams', workers, place, '--explain')
            told, _ = traced(program, words, place / '001', [f'read:error={error}:when=2'], log)
            expect_told(words, refused(f'E1 Read file 1 at 3\ntor: file 1 is 001: {reason}', 3), told)


# The kind, a part of so many of a plan of the long files in units of two pieces, the hashes of its pieces, and their
# SHA-1.
LOTS = [
    ('v1', '1/2', [], [THIRD, FOURTH]), ('v2', '1/2', [LAST_OF_7232, L0], []), ('v2', '10/16', [], []),
    ('hybrid', '0/1', [L0, L1, LAST_OF_7232, L0], [LONG_HYBRID])]


def test_parts_of_a_plan(program, folder):
    """The last part, which has the last file alone, is hashed without the other files."""
    place, plan = folder / 'files', folder / 'plan'
    lay_out(place, LONG)
    rows = [(*row, False) for row in LOTS] + [('v2', '2/3', [L0], [], True)]
    for kind, part, merkle, sums, is_last in rows:
        words = ['plan', '--name', 'f', '--kind', kind, '--piece-length', str(BLOCK), '--span', '2']
        expect(program, [*words, '--out', str(plan), str(place)], done())
        if is_last:
            (place / '000').unlink()
        for how, workers in SHARED:
            out = folder / 'part'
            out.unlink(missing_ok=True)
            expect(program, ['make', '--plan', str(plan), '--part', part, '--how', how, '--workers', str(workers),
                             '--out', str(out), str(place)], done())
            lot = decode(out.read_bytes())
            expect_equal(f'{kind} {part} by {how} of {workers}', (b''.join(merkle), b''.join(sums)),
                         (lot[b'hashes'], lot[b'pieces']))


# The length of a file of zeros and of a piece, the span, the kind, and how many bytes the largest read asks for.
READS = [
    (40_000, 16_384, 1, 'v1', 16_384), (40_000, 16_384, 2, 'v2', 32_768), (40_000, 16_384, 1, 'hybrid', 16_384),
    (1_200_000, 1 << 21, 1, 'v2', 1 << 20), (1_200_000, 1 << 19, 2, 'v1', 1 << 20),
    # Eight pieces, whose read asks for all of them.
    (4_500_000, 1 << 18, 32, 'v1', 1 << 21), (9_000_000, 1 << 20, 16, 'v1', 1 << 23)]
# No read asks for fewer bytes if as many are left.
LEAST_READ = 1 << 16


def test_what_reads_ask_for(program, folder):
    """No read goes past the end of a unit, or asks for nothing, or for few bytes where many are left; however many
    bytes a read gives."""
    place, log, library = folder / 'zeros', folder / 'log', built(folder)
    for (length, piece_length, span, kind, most), short, (how, workers) in product(
            READS, [0, 50_000, 9_999], [('one', 1), ('halves', 2)]):
        place.write_bytes(bytes(length))
        words = [f'LD_PRELOAD={library}', f'REFUSER_SHORT={short}', preloadable(program),
                 *words_of(kind, piece_length, span, how, workers, place)]
        told, text = traced('env', words, place, [], log, trace='pread64')
        reads = [(int(start), int(asked)) for asked, start, _ in READ.findall(text)]
        lefts = [min(length - start, piece_length * span - start % (piece_length * span)) for start, _ in reads]
        wrong = [(start, asked) for (start, asked), left in zip(reads, lefts)
                 if asked == 0 or asked > left or asked < LEAST_READ <= left]
        expect_equal(f'{words[3:]}: status, wrong reads, and the largest', (0, [], most),
                     (told.status, wrong, max(asked for _, asked in reads)))
        if short and len(reads) < length // short:
            raise Failure(f'{words[3:]}: {len(reads)} reads of at most {short} bytes gave {length}')


def test_a_length_that_is_asked_again(program, folder):
    """Once all is read: what has changed since the first asking is told, and a file that is missing only then."""
    refuser, place = Refuser(program, folder), folder / 'a'
    words = ['make', '--name', 'a', '--piece-length', str(BLOCK), str(place)]

    def lay_out_file():
        place.unlink(missing_ok=True)
        place.write_bytes(bytes(40_000))
    moves = [(lambda _: place.unlink(), 'E2 Changed file 0'),
             (lambda _: place.write_bytes(bytes(39_999)), 'E2 Changed file 0'),
             (lambda _: place.write_bytes(bytes(40_001)), 'E2 Changed file 0')]
    for act, line in moves:
        *_, last = refuser.each(words, Meet('s', does='hold'), act=act, before=lay_out_file)
        expect_told(words, refused(line, 3), Told(*last[:3]))
    lay_out_file()
    *_, last = refuser.each(words, Meet('s'))
    expect_told(words, refused('E1 Read file 0 at length', 3), Told(*last[:3]))


def test_a_read_that_is_refused(program, folder):
    """The one behind a read that gave few bytes, of a file that is hashed, and of one that is rechecked."""
    refuser, place, torrent = Refuser(program, folder), folder / 'a', folder / 'torrent'
    place.write_bytes(bytes(65_536))
    make = ['make', '--name', 'a', '--piece-length', '65536', '--out', str(torrent), str(place)]
    expect(program, make, done())
    for words, code in [(make, 'E1'), (['recheck', str(torrent), str(place)], 'C1')]:
        met = refuser.run(words, Meet('r', 1, ALL_LATER, 'tell', short=49_157)).met
        _, second = (number for number, one in enumerate(met, 1) if one.place == str(place))
        told = refuser.run(words, Meet('r', second, second, short=49_157))
        expect_told(words, refused(f'{code} Read file 0 at 49157', 3), Told(*told[:3]))


def test_a_length_that_is_not_told(program, folder):
    """Of the last of eight files, which has become a link to itself since the plan and the torrent were made."""
    place, plan, torrent = folder / 'files', folder / 'plan', folder / 'torrent'
    lay_out(place, [b'a'] * 8)
    shape = ['--name', 'f', '--piece-length', str(BLOCK)]
    expect(program, ['plan', *shape, '--out', str(plan), str(place)], done())
    expect(program, ['make', *shape, '--out', str(torrent), str(place)], done())
    (place / '007').unlink()
    (place / '007').symlink_to('007')
    # A part follows no link.
    expect(program, ['make', '--plan', str(plan), '--part', '0/1', str(place)], refused('E3 Missing file 7', 3))
    expect(program, ['recheck', str(torrent), str(place)], refused('C1 Read file 7 at length', 3))


# How many read at once a file of 16 units, by each way and number of workers.
CROWDS = [('one', 1), ('halves', 1), ('halves', 2), ('halves', 3), ('halves', 4), ('halves', 5), ('board', 1),
          ('board', 2), ('board', 5)]


def test_no_more_workers_than_were_asked_for(program, folder):
    refuser, place = Refuser(program, folder), folder / 'a'
    place.write_bytes(bytes(16 * BLOCK))
    for how, workers in CROWDS:
        words = words_of('v2', BLOCK, 1, how, workers, place)
        count, ended = reads_at_once(refuser, words, None, workers)
        expect_equal(f'{how} of {workers}: reads at once, and the status', (workers, 0), (count, ended.status))
