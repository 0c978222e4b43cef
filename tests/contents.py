"""What rows of hashes share: contents whose byte i is i % 251, so that no two blocks or pieces in a row are alike,
their hashes as Python's hashlib told them, and torrents that are spelled with given hashes."""
from itertools import cycle, islice

from reference import attr_of, encode, entries_of, spelled_entry

BLOCK = 16384


def content(length):
    return bytes(islice(cycle(range(251)), length))


def hashes(text, size=32):
    """The hashes, of so many bytes each, that stand in a text in hexadecimal."""
    data = bytes.fromhex(text)
    return [data[at:at + size] for at in range(0, len(data), size)]


# The SHA-256 of each of eighteen blocks of a content, the last of which has one byte.
LEAVES = hashes('''
    4348e3b98e8a327b34ced39c1da9e67cdb4cd5e48e4d7960607a3ae403d35f0c
    f7c9045c2a79a8a2a587efbf5b310652685b292e6fbb0b08c1df857500da2699
    597f81859724f979aece03e95c048d6ee5c6d59351e6a4db048997db6f05c845
    e20f1d51951c26d95412e711a195c74f1d4317ef260e98f2f86e74ed414c670f
    10f13f067b84b1b4a6a19e8e59e26093786cbda1f531c54457e6654a551f659f
    32aad31cb73ae69fe6bb26e7cd20c27c439b95d90fc65362e809d9ea8bd4822a
    fb72aa2c8686bf56f54778d45945b22b8d222b0d2eefad7bbe25d40b21548afc
    d6ca6bb778749f91ab0465a759ce2cb934b167f2ac2f83fcd91e62e365ed7758
    bf8a65753fbddfbc0bbd58f933e4db8161236fc1e82c7e2cfe03f179a0a02a8c
    632fd8d415e37d2786fcdb8b5715c764178a7d3f41698fb9456c05dcc7f258b0
    8fc62f8b59e3aa89ead95cc8924b77f8452cf5df6f4740924526d54eb0ed9d7e
    75d8bb1bf0c10855f3bc41c236f3faa79232ba14c61a710e9d7b8c66ba1f825a
    073ee1ac1abd458cb300a7ac5114d58e5322dd026d96143989c04752bbdc94df
    2a9572ee9113a364365ca6e6d69869bee963671ec578a521fd9cc2d9c653d8b6
    02d9ccd9681682b6a9aed0b64bb33d1fd79a535b60b94209a7157825128af1d3
    c2989797f43646ba3a3c7e6291ffec6e86a1070d3c015760f2277636fb1b5a53
    cdfdddfe030c741cf2871725e5ec05c3aa021216659e972985d37d6dd521f6ea
    9e8e8c37a53bac77a653d590b783b2508e8ed2fed040a278bf4f4703bbd5d82d
''')
L0, L1, L2, L3, L4 = LEAVES[:5]
ROOT_OF_18, = hashes('c5ee7a501d96e56e295122b00a144a9e155ec98aece3ef8796be9e6ed511aae3')
# The leaves of shorter last blocks: of the content of three bytes, and of the last byte, of the last five and of the
# last 7,232 bytes of contents that end so.
OF_THREE, LAST_OF_ONE, LAST_OF_FIVE, LAST_OF_7232 = hashes('''
    ae4b3280e56e2faf83f414a6e3dabe9d5fbe18976544c05fed121accb85b53fc
    a9f51566bd6705f7ea6ad54bb9deb449f795582d6529a0e22207b8981233ec58
    f55df42ea5fe16593549babd6616bfd0c8ee9c0096f082713ca9b81b308b27f3
    8ec99c0fa906ccb81a4c7b869839283e273b596b824b31007f6649d31281db63
''')
# Five blocks in pieces of two (BEP 52, "pieces root", "piece layers"). The layer has the hash of each piece. Past the
# end stand zero subtrees, Z0 of one leaf and Z1 of two, and the layer has none of them.
#
#                     root
#               /              \
#           P01                    *
#        /     \                /     \
#      P0        P1          P2        Z1        the layer: P0 P1 P2
#     /  \      /  \        /  \      /  \
#   L0    L1  L2    L3    L4    Z0  Z0    Z0     the SHA-256 of each block
P0, P1, P2, P01 = hashes('''
    d9e13d0b676ad681164ef0b7b5910d1328ea83a047cad57e619d76bbe3a08525
    e28097eaaa55956702cf8195d1a551dbabb63e3d679b294cf33d506a6b5ef479
    8f954551952d5d157cc3a8502295e436fdb881a09a5498dfe0edf5aa61702abf
    2d6b546231225a7132a38ab354f03e9132e4b9141da89f1784b71ab2fb34fae3
''')
Z0, Z1, Z2 = bytes(32), *hashes('''
    f5a5fd42d16a20302798ef6ed309979b43003d2320d9f0e8ea9831a92759fb4b
    db56114e00fdd4c1f85c892bf35ac9a89289aaecb1ebd0a96cde606a748b5d71
''')
# The last piece of three blocks in pieces of two, and of one block in pieces of two and of four.
LAST_P1, WIDE, WIDER = hashes('''
    d5b0e36f05eedd8fea7269f48169e12596a589f6c88593b9279c6327ab4c228b
    03cc1a6c6a86497f376fc00f50e4d45bd64e6eeb0c5fbf89e73a42d99871086e
    afcd9848232a82fa8da1aa932db2b0325f079d91447534b60f8f03a7c113e258
''')
# The roots of contents: of a block and a byte, of 40,000 bytes, of three blocks, of these and five bytes, of five.
OF_TWO_BLOCKS, OF_40000, OF_THREE_BLOCKS, OF_49157, OF_FIVE_BLOCKS = hashes('''
    9d7887c65d577a0237fb3c0998b87b3a62762d03796889a2caea01db914ccbb8
    ab671631a9fa97a1fdac651fff6c68773b9acf0735b9c7f6ecdd54cbf1bf5dc2
    c23d35ec942288a7d9b58d1d0446a76104660b7c72e5cf39f38bddb028ff8ca0
    4be4cf030e4a5aadb5045abee9adbc1486d339a1d34fb4ee0632e6c767e02885
    ecc31c9c67d9c7b8c7f2540df72208ac59a0dc2f7b2477b26638db313a245ca4
''')
BLOCKS_OF_40000, BLOCKS_OF_49157 = [L0, L1, LAST_OF_7232], [L0, L1, L2, LAST_OF_FIVE]
FIVE_BLOCKS, FIVE_BY_TWO = LEAVES[:5], [P0, P1, P2]
# The SHA-256 of `abc`, `ab` and `c`.
OF_ABC, OF_AB, OF_C = hashes('''
    ba7816bf8f01cfea414140de5dae2223b00361a396177a9cb410ff61f20015ad
    fb8e20fc2e4c3f248c60c39bd652f3c1347298bb977b8b4d5903b85055620603
    2e7d2c03a9507ae265ecf5b5356885a53393a2029d241394997265a1a25aefc6
''')
# The SHA-1 of `abc`, of `ab`, of `ab` and zeros up to a block, of `c` so, and of `c`.
SUM_OF_ABC, SUM_OF_AB, FILLED_AB, FILLED_C, SUM_OF_C = hashes('''
    a9993e364706816aba3e25717850c26c9cd0d89d da23614e02469a0d7c7bd1bdab5c9c474b1904dc
    cb25cee0c9ee3fc57413e472acdb191386edb612 02a80cb304201061b6615a81fba4e3af3f895b96
    84a516841ba77a5b4648de2cd0dfcb30ea46dbb4
''', 20)


def v2_of_one(length, root, layer, piece_length=BLOCK):
    """A torrent of one file `a`, or of an empty one where the root is None."""
    properties = {b'length': length} if root is None else {b'length': length, b'pieces root': root}
    info = {b'file tree': {b'a': {b'': properties}}, b'meta version': 2, b'name': b'a', b'piece length': piece_length}
    return encode({b'info': info, b'piece layers': {root: b''.join(layer)} if layer else {}})


def v1_of_one(length, piece_length, pieces):
    """A torrent of one file `a` whose pieces have these SHA-1s, one after another."""
    return encode({b'info': {b'length': length, b'name': b'a', b'piece length': piece_length, b'pieces': pieces}})


def torrent_of(kind, files, roots, layers, pieces, piece_length=BLOCK, tail=False, letters=None):
    """A torrent `f` of these paths and contents, in the order of their paths, with the root and the layer of each and
    the joined SHA-1s of all. No byte is hashed."""
    letters = letters or {}
    info, root = {b'name': b'f', b'piece length': piece_length}, {}
    if kind != 'v1':
        tree = info[b'file tree'] = {}
        for (path, data), hash_of in zip(files, roots):
            folder = tree
            for name in path:
                folder = folder.setdefault(name, {})
            folder[b''] = {b'length': len(data), **attr_of(letters.get(path))}
            if hash_of:
                folder[b''][b'pieces root'] = hash_of
        info[b'meta version'] = 2
        root[b'piece layers'] = {one: b''.join(layer) for one, layer in zip(roots, layers) if layer}
    if kind != 'v2':
        entries = entries_of(files, piece_length, kind == 'hybrid', tail)
        info[b'files'] = [spelled_entry(*entry, letters) for entry in entries]
        info[b'pieces'] = pieces
    return encode({b'info': info, **root})
