"""Hashes of contents and of other hashes, each in hexadecimal as Python's hashlib, `sha256sum` or a standard has it:
roots and layers that `make` writes and `check` accepts, SHA-1s of pieces that `recheck` finds right, proofs of pieces.
"""
from contents import (
    BLOCKS_OF_40000, BLOCKS_OF_49157, FIVE_BLOCKS, FIVE_BY_TWO, L0, L1, L2, L4, LAST_OF_7232, LAST_OF_FIVE, LAST_OF_ONE,
    LAST_P1, LEAVES, OF_40000, OF_49157, OF_AB, OF_ABC, OF_C, OF_FIVE_BLOCKS, OF_THREE, OF_THREE_BLOCKS, OF_TWO_BLOCKS,
    P0, P01, P1, P2, SUM_OF_ABC, WIDE, WIDER, Z0, Z1, Z2, content, hashes, v1_of_one, v2_of_one)
from reference import BLOCK, decode, recheck_lines, root_of, sha1, sha256
from support import done, expect, expect_equal, refused, run

ZERO_BLOCK, = hashes('4fe7b59af6de3b665b67788cc2f99892ab827efae3a467342b3bb4e3bc8e5bfe')
# A content, the length of a piece, and its root and layer.
SUMS = [
    (b'', BLOCK, None, []), (content(3), BLOCK, OF_THREE, []), (content(16_384), BLOCK, L0, []),
    (content(16_385), BLOCK, OF_TWO_BLOCKS, [L0, LAST_OF_ONE]), (content(32_768), 32_768, P0, []),
    (content(40_000), BLOCK, OF_40000, BLOCKS_OF_40000), (content(49_152), BLOCK, OF_THREE_BLOCKS, [L0, L1, L2]),
    (content(49_152), 32_768, OF_THREE_BLOCKS, [P0, LAST_P1]), (content(49_157), BLOCK, OF_49157, BLOCKS_OF_49157),
    (content(81_920), 32_768, OF_FIVE_BLOCKS, FIVE_BY_TWO), (content(81_920), BLOCK, OF_FIVE_BLOCKS, FIVE_BLOCKS),
    (content(81_920), 1 << 30, OF_FIVE_BLOCKS, []), (b'abc', BLOCK, OF_ABC, []), (b'ab', BLOCK, OF_AB, []),
    (b'c', BLOCK, OF_C, []),
    # Eight blocks, which are hashed at once.
    (content(131_072), BLOCK, root_of(LEAVES[:8]), LEAVES[:8]),
    (bytes(131_072), BLOCK, root_of([ZERO_BLOCK] * 8), [ZERO_BLOCK] * 8)]


def test_roots_and_layers(program, folder):
    """Of standard input, of a file, and as `check` accepts them."""
    place, torrent = folder / 'a', folder / 'torrent'
    for data, piece_length, root, layer in SUMS:
        wanted = v2_of_one(len(data), root, layer, piece_length)
        words = ['make', '--name', 'a', '--piece-length', str(piece_length)]
        note = f'{len(data)} bytes in pieces of {piece_length}\n'
        expect(program, words, done(wanted), data, note=note)
        place.write_bytes(data)
        expect(program, [*words, str(place)], done(wanted), note=note)
        torrent.write_bytes(wanted)
        expect_equal(f'{note}check', 0, expect_checked(program, torrent, root).status)


def expect_checked(program, torrent, root, note=''):
    """That it is a torrent whose file has this root."""
    told = expect_status(program, ['check', '--roots', str(torrent)], note)
    roots = [line for line in told.out.splitlines() if line.startswith(b'root ')]
    expect_equal(f'{note}the root', [b'root %s 0' % root.hex().encode()] if root else [], roots)
    return told


def expect_status(program, words, note):
    told = run(program, words)
    expect_equal(f'{note}{words}: status and standard error', (0, b''), (told.status, told.err))
    return told


def test_a_hundred_blocks(program, _folder):
    root, last = hashes('7b2ac37c09a99dbcfda8bb89f8604684ac60ba314f772fdde6f789123b5d9575'
                        'd63e0ec4c0a4ce56d4371cd1c4aab43f3164959fe9f442d6714721f84f60bcd1')
    words = ['make', '--name', 'a', '--piece-length', '65536']
    made = decode(run(program, words, content(1_638_400)).out)
    layer = made[b'piece layers'][root]
    expect_equal('root, hashes of the layer, and the last', (root, 25, last), (
        made[b'info'][b'file tree'][b'a'][b''][b'pieces root'], len(layer) // 32, layer[-32:]))


# The length of a piece, and whether it may be one.
LENGTHS = [(0, False), (1, False), (8_192, False), (16_383, False), (16_384, True), (16_385, False), (24_576, False),
           (32_768, True), (1 << 29, True), (1 << 30, True), ((1 << 30) + 1, False), (1 << 31, False),
           ((1 << 64) - 1, False)]


def test_lengths_of_pieces(program, folder):
    for length, is_allowed in LENGTHS:
        words = ['make', '--name', 'a', '--piece-length', str(length)]
        made = done(v2_of_one(0, None, [], length))
        expect(program, words, made if is_allowed else refused('M1 PieceLength'))
        words = ['verify', '00' * 32, '1', str(length), str(folder)]
        expect(program, words, refused('read fault', 3) if is_allowed else refused('bad piece length'))


# So many hashes of level 3, which lie one after another in a content: their root, and that of a tree of 2^10.
LAYERS = [
    (1, '000102030405060708090a0b0c0d0e0f101112131415161718191a1b1c1d1e1f',
     '59b788f5b15d3ac063f2f0ea43625f4449020e6ccbed38f07c3a11ff7a514fdf'),
    (15, 'c297e8582e0165c978488b1891aa0855be76620f9b91911e1dc590b949e3eeb9',
     'a76856759698f82ca062522e6582987ef5360e716212424c2d1bf89e1ab81ead'),
    (16, '06d7f777948ac1da785f35a73b998de11280898dc15ac89ae83cbc906fb90c5f',
     'ee0797d121a581890f11f4aaacb7d80e92d3a27ae5c4561bcff61150aab2006a'),
    (17, 'f778470e8cf0b733d7ca066adebf1ef4896db36732a5f8ce66cf62438ab5189b',
     'c5549fce83b3a8bf32abfb2fda017b1d11e2ec04302ac1fbf7a1507c9d454529'),
    (127, 'bbbafe26c11ba4e7fed490a17bb23ea7a5bae8775fd4f2e26bbcb1e5642a78fe',
     '0575465372a78e3c2eb60affb8a68288a073b8eed86b1434b1e0af53cc8f7c9f'),
    (128, 'eab19f94eb11669bfb6f798d9c506fe7a3c270628cebbfd4acd2dd8162ad8b27',
     '935905f144ffd182eac504f4b3cbee9496011ea87992a2ba84e45ae9048e9a06'),
    (129, '8c4e4b4d5388234b088fd2e7079ac53929d16e7a9165aa96fde4372ec4d93568',
     '75c3ca7a345c839f4e1767132f0ce9d749ff5f0f7da0a529376a2aae1d4b211d'),
    (1000, '7ee6ac5a8edd7d38da5aadc6de74f2439e2aef51fbce6446ec485dbe0fcefff9',
     '7ee6ac5a8edd7d38da5aadc6de74f2439e2aef51fbce6446ec485dbe0fcefff9')]
F0, F1, F2, F3, F4 = [bytes([number]) * 32 for number in range(1, 6)]


def test_layers(program, folder):
    """A layer of these hashes is accepted with this root alone; behind 2^10 other pieces the tree over them stands
    beside that of those. One hash is no layer."""
    torrent, level, piece_length = folder / 'torrent', 3, 8 * BLOCK
    for count, root, wide in LAYERS:
        layer, root, wide = hashes(content(32 * count).hex()), bytes.fromhex(root), bytes.fromhex(wide)
        if count > 1:
            torrent.write_bytes(v2_of_one(count * piece_length, root, layer, piece_length))
            expect_checked(program, torrent, root, f'{count} hashes\n')
            turned = bytes([root[0] ^ 1]) + root[1:]
            torrent.write_bytes(v2_of_one(count * piece_length, turned, layer, piece_length))
            expect(program, ['check', str(torrent)], refused('V21 LayerRoot'))
        front = [F0] * 1024
        torrent.write_bytes(v2_of_one((1024 + count) * piece_length, sha256(root_of(front, level) + wide),
                                      front + layer, piece_length))
        told = expect_status(program, ['prove', str(torrent), '0', '0'], f'{count} hashes behind 1024\n')
        expect_equal(f'{count} hashes: the last sibling', b'sibling ' + wide.hex().encode(), told.out.splitlines()[-1])


# Hashes of a level, and the nodes that they have in pairs.
NODES = [(content(512), [sha256(content(512)[at:at + 64]) for at in range(0, 512, 64)]), (bytes(512), [Z1] * 8)]


def test_eight_nodes(program, folder):
    torrent = folder / 'torrent'
    for data, nodes in NODES:
        root = root_of(nodes, 1)
        torrent.write_bytes(v2_of_one(16 * BLOCK, root, hashes(data.hex())))
        expect_checked(program, torrent, root)


# The length of a piece, a content, and the SHA-1 of each piece: of `abc`, `def` and `g`; of 30,000 zeros thrice and of
# 10,000; of a million `a`, the standard's example.
SEVEN, ZEROS = hashes('''
    a9993e364706816aba3e25717850c26c9cd0d89d 589c22335a381f122d129225f5c0ba3056ed5811
    54fd1711209fb1c0781092374132c66e79e2241b''', 20), hashes('''
    e0b84b834a7adb40107fa783a008fd5e699dd938 e0b84b834a7adb40107fa783a008fd5e699dd938
    e0b84b834a7adb40107fa783a008fd5e699dd938 f907b7bf318b79fd6b9da589646f8b1dac77d0c8''', 20)
MILLION, = hashes('34aa973cd4c4daa4f61eeb2bdbad27316534016f', 20)
PIECES = [(BLOCK, b'', []), (BLOCK, b'abc', [SUM_OF_ABC]), (3, b'abcdefg', SEVEN), (30_000, bytes(100_000), ZEROS),
          (1_000_000, b'a' * 8_000_000, [MILLION] * 8)]
# The length of a piece, that of a content, and the SHA-1 of the joined SHA-1s of its pieces. Eight whole pieces are
# hashed at once.
SUMMED = [(64, 1_089, '4cedf31704daf5ef33f47b02bf6d4d9a8d2250d6'),
          (16_384, 278_529, 'a20c97c3322e9658ebc2d8caaf144acecb23b7fb'),
          (100, 1_701, 'a9e467ae3a4d079309fab79c79f4adeb37e00b5f')]
EIGHT = [(64, 512), (16_384, 131_072)]


def sums_of(data, piece_length):
    return [sha1(data[at:at + piece_length]) for at in range(0, len(data), piece_length)]


def test_sums_of_pieces(program, folder):
    """They are found by a recheck, each alone: where another one is told of a piece, it is not."""
    rows = PIECES + [(length, content(size), sums_of(content(size), length)) for length, size in EIGHT]
    for piece_length, length, wanted in SUMMED:
        sums = sums_of(content(length), piece_length)
        expect_equal(f'{length} bytes in pieces of {piece_length}', wanted, sha1(b''.join(sums)).hex())
        rows.append((piece_length, content(length), sums))
    torrent, place = folder / 'torrent', folder / 'a'
    for piece_length, data, sums in rows:
        place.write_bytes(data)
        words = ['recheck', str(torrent), str(place)]
        torrent.write_bytes(v1_of_one(len(data), piece_length, b''.join(sums)))
        expect(program, words, done(recheck_lines([True] * len(sums))))
        others = [bytes(20) if number % 3 == 0 else one for number, one in enumerate(sums)]
        torrent.write_bytes(v1_of_one(len(data), piece_length, b''.join(others)))
        expect(program, words, done(recheck_lines([number % 3 != 0 for number in range(len(sums))]), int(bool(sums))))
        if piece_length == BLOCK:
            words = ['make', '--name', 'a', '--kind', 'v1', '--piece-length', str(piece_length), str(place)]
            expect(program, words, done(v1_of_one(len(data), piece_length, b''.join(sums))))


# The nodes beside the third of the five, and their root.
F01, F4567, OF_FIVE = hashes('''
    f818afd37a6dc3bc92fb44731011277006db4efa6e9023cd7468c02335d22a4d
    e3569b7816039f1449efad9551566c6077aa5a470354e629ff1cd5a9c409179b
    6c1cfb22738edf2a397893ab3bd49b601f5dfc69439772b613f6fad2889ebbd6
''')
FIVE = [F0, F1, F2, F3, F4]
# The root over the node that a tree of three pieces has first, and another fourth; that above a tree of three; the node
# over the hashes of `ab` and `c`, and the root over these and that of `abc` at level 1.
OTHER, ABOVE, OF_PAIR, OF_STACK = hashes('''
    0c24bacb711bba3f26708a7ff85eceb15956146fb96116706af600cfc6571cd4
    e6fb54c1e6a74df5d2a7235248253291e1ae05df97d721bd74a3d334cb654271
    115323e562c4a4fdf7ceacedca660dc4bbe1389dab9323aad08440907c7426d0
    0069305f195129eb7e8ddb2f05b67f3d6fb865c73b5f880fe082e5b96da344d9
''')
# A root, the length of the file and of a piece, an index, the hash there, its siblings, and what is said of them.
JUDGED = [
    (OF_49157, 49_157, BLOCK, 2, L2, [LAST_OF_FIVE, P0], True),
    (OF_FIVE, 81_920, BLOCK, 2, F2, [F3, F01, F4567], True), (OF_FIVE, 81_920, BLOCK, 3, F2, [F3, F01, F4567], False),
    (OF_FIVE, 81_920, BLOCK, 2, F2, [F3, F01], False),
    # A file of two blocks, and that of their hashes, have one root.
    (F01, 32_768, BLOCK, 0, F0, [F1], True), (F01, 64, BLOCK, 0, F0, [F1], False),
    # The third of three, with the zeros beside it and with another hash; under the root that these siblings lead to,
    # which a tree of four pieces has; with a sibling too few, and one too many.
    (OF_40000, 40_000, BLOCK, 2, LAST_OF_7232, [Z0, P0], True),
    (OF_40000, 40_000, BLOCK, 2, LAST_OF_7232, [L0, P0], False),
    (OTHER, 40_000, BLOCK, 2, LAST_OF_7232, [L0, P0], False), (OTHER, 65_536, BLOCK, 2, LAST_OF_7232, [L0, P0], True),
    (OF_40000, 40_000, BLOCK, 2, LAST_OF_7232, [Z0], False),
    (ABOVE, 40_000, BLOCK, 2, LAST_OF_7232, [Z0, P0, Z2], False),
    # One hash is the root, with no sibling, and no other is.
    (L0, 16_384, BLOCK, 0, L0, [], True), (L1, 16_384, BLOCK, 0, L0, [], False),
    (OF_FIVE_BLOCKS, 81_920, 32_768, 2, P2, [Z1, P01], True),
    # Nodes over two hashes.
    (P01, 65_536, 32_768, 0, P0, [P1], True), (P0, 32_768, BLOCK, 0, L0, [L1], True),
    (P2, 32_768, BLOCK, 0, L4, [Z0], True), (OF_PAIR, 32_768, BLOCK, 0, OF_AB, [OF_C], True),
    (OF_STACK, 98_304, 32_768, 2, OF_ABC, [Z1, OF_PAIR], True)]


def proof_text(index, hash_of, siblings):
    lines = [f'index {index}', f'hash {hash_of.hex()}'] + [f'sibling {one.hex()}' for one in siblings]
    return ''.join(line + '\n' for line in lines).encode()


def expect_judged(program, folder, row, data=None, note=''):
    """What `verify` says of a proof, and of the bytes of the piece if there are any."""
    root, length, piece_length, index, hash_of, siblings, holds = row
    proof, piece = folder / 'proof', folder / 'piece'
    proof.write_bytes(proof_text(index, hash_of, siblings))
    words = ['verify', root.hex(), str(length), str(piece_length), str(proof)]
    if data is not None:
        piece.write_bytes(data)
        words.append(str(piece))
    expect(program, words, done(b'yes\n') if holds else done(b'no\n', 1), note=note)


def test_proofs_that_are_judged(program, folder):
    for row in JUDGED:
        expect_judged(program, folder, row)


# The hashes of a file, its length, the length of a piece, its root, an index, and the siblings there.
SIBLINGS = [
    (BLOCKS_OF_49157, 49_157, BLOCK, OF_49157, 2, [LAST_OF_FIVE, P0]),
    (FIVE, 81_920, BLOCK, OF_FIVE, 2, [F3, F01, F4567]), (BLOCKS_OF_40000, 40_000, BLOCK, OF_40000, 2, [Z0, P0]),
    ([L0], 16_384, BLOCK, L0, 0, []), (FIVE_BY_TWO, 81_920, 32_768, OF_FIVE_BLOCKS, 2, [Z1, P01]),
    ([OF_AB, OF_C, OF_ABC], 98_304, 32_768, OF_STACK, 2, [Z1, OF_PAIR]),
    # The first of nine hashes stands alone in its half: beside it, and above it, there are none.
    ([F0] * 9, 9 * BLOCK, BLOCK, root_of([F0] * 9), 8, [Z0, Z1, Z2, root_of([F0] * 8)])]
# Indices past the last hash of such files.
PAST = [(BLOCKS_OF_40000, 40_000, OF_40000, 3), (BLOCKS_OF_40000, 40_000, OF_40000, 4),
        (BLOCKS_OF_40000, 40_000, OF_40000, (1 << 64) - 1), (FIVE, 81_920, OF_FIVE, 5)]


def test_siblings(program, folder):
    torrent = folder / 'torrent'
    for layer, length, piece_length, root, index, siblings in SIBLINGS:
        torrent.write_bytes(v2_of_one(length, root, layer if length > piece_length else [], piece_length))
        expect(program, ['prove', str(torrent), '0', str(index)], done(proof_text(index, layer[index], siblings)))
    for layer, length, root, index in PAST:
        torrent.write_bytes(v2_of_one(length, root, layer))
        expect(program, ['prove', str(torrent), '0', str(index)], refused('P1 Index'))


def test_a_proof_is_of_one_index_and_hash(program, folder):
    """Each piece of these files is accepted at its index alone, and there no other hash is."""
    torrent = folder / 'torrent'
    for layer, length, root in [(BLOCKS_OF_40000, 40_000, OF_40000), (BLOCKS_OF_49157, 49_157, OF_49157),
                                (FIVE_BLOCKS, 81_920, OF_FIVE_BLOCKS)]:
        torrent.write_bytes(v2_of_one(length, root, layer))
        for index, one in enumerate(layer):
            told = expect_status(program, ['prove', str(torrent), '0', str(index)], '')
            siblings = [bytes.fromhex(line[8:].decode()) for line in told.out.splitlines()[2:]]
            for other in range(len(layer) + 2):
                row = (root, length, BLOCK, other, one, siblings, other == index)
                expect_judged(program, folder, row, note=f'the proof of piece {index} of {length} bytes, at {other}\n')
            expect_judged(program, folder, (root, length, BLOCK, index, root, siblings, False))


def test_a_file_and_that_of_its_hashes(program, _folder):
    words = ['make', '--name', 'a', '--piece-length', str(BLOCK)]
    expect(program, words, done(v2_of_one(64, F01, [])), F0 + F1)


# The bytes of a piece, its length in a longer file, and its hash.
PIECE_ROOTS = [
    (content(16_384), 32_768, WIDE), (content(16_384), 65_536, WIDER), (content(32_768), 32_768, P0),
    (content(32_768), 32_768, P0), (content(49_152)[32_768:], 32_768, LAST_P1), (content(16_384), BLOCK, L0),
    (content(32_768)[16_384:], BLOCK, L1), (content(49_152)[32_768:], BLOCK, L2)]


def test_bytes_of_pieces(program, folder):
    """As the last piece of a file of two, `verify` hashes them to this."""
    for data, piece_length, wanted in PIECE_ROOTS:
        row = (sha256(F0 + wanted), piece_length + len(data), piece_length, 1, wanted, [F0], True)
        expect_judged(program, folder, row, data)
        expect_judged(program, folder, row[:6] + (False,), data[1:] + data[:1])
