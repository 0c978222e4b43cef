"""BEP 3, 47 and 52 written once more, plainly: makes, judges and rechecks torrents, and proves single pieces.

It shares nothing with the program, and takes no value from it. What the standards leave open is decided as
docs/MANUAL.md and docs/DECISIONS.md say. Contents are bytes in memory; None is a file that is missing.
"""
import hashlib
import re
from collections import namedtuple
from functools import cached_property
from itertools import groupby

BLOCK = 16384
MAX_PIECE_LENGTH = 1 << 30
MAX_UNIT_LENGTH = 1 << 30
MAX_FILE_LENGTH = 1 << 50
MAX_TOTAL = 1 << 62
MAX_NESTING = 100

NAMES = {
    'B1': 'Truncated', 'B2': 'BadByte', 'B3': 'BadInteger', 'B4': 'IntegerRange', 'B5': 'BadLength',
    'B6': 'KeyNotBytes', 'B7': 'KeyOrder', 'B8': 'TooDeep', 'B9': 'Trailing',
    'N1': 'Empty', 'N2': 'Dot', 'N3': 'DotDot', 'N4': 'Slash', 'N5': 'Nul', 'N6': 'NotUtf8',
    'M1': 'PieceLength', 'M2': 'Workers', 'M3': 'Span', 'L3': 'TooLarge', 'L4': 'NoFiles', 'Y1': 'ReservedPad',
    'V1': 'Bencode', 'V2': 'RootShape', 'V3': 'InfoShape', 'V4': 'MetaVersion', 'V5': 'PieceLength', 'V6': 'Name',
    'V7': 'LengthAndFiles', 'V8': 'FileShape', 'V9': 'FileLength', 'V10': 'Duplicate', 'V11': 'FileAndFolder',
    'V12': 'NoFiles', 'V13': 'TooLarge', 'V14': 'Symlink', 'V15': 'PiecesLength', 'V16': 'MixedNode',
    'V17': 'RootHash', 'V18': 'LayersAbsent', 'V19': 'LayerAbsent', 'V20': 'LayerLength', 'V21': 'LayerRoot',
    'V22': 'FilesDiffer', 'V23': 'Alignment', 'V25': 'AttrDiffer', 'P1': 'Index', 'P2': 'NoTree',
    'F1': 'NotUtf8', 'F2': 'NotRegular', 'F3': 'TooDeep', 'F4': 'System',
}


class Refused(Exception):
    """A refusal by its code, and what stands behind its name."""

    def __init__(self, code, more=''):
        super().__init__(code)
        self.code = code
        self.line = f'{code} {NAMES[code]}{more}'


class BadBencode(Exception):
    """The first fault of bytes that spell no tree, and its offset."""

    def __init__(self, code, offset):
        super().__init__(code, offset)
        self.code, self.offset = code, offset


# Bencode (BEP 3, "bencoding"). A tree is an int, bytes, a list, or a dict whose keys rise as they stand in it.

def encode(item):
    if isinstance(item, bytes):
        return b'%d:%b' % (len(item), item)
    if isinstance(item, int):
        return b'i%de' % item
    if isinstance(item, list):
        return b'l%be' % b''.join([encode(value) for value in item])
    return b'd%be' % b''.join([b'%d:%b%b' % (len(key), key, encode(item[key])) for key in sorted(item)])


def decode(text):
    item, end = read_value(text, 0, 0)
    if end < len(text):
        raise BadBencode('B9', end)
    return item


def read_value(text, at, nesting):
    first = text[at:at + 1]
    if first.isdigit():
        return read_bytes(text, at)
    if first == b'i':
        return read_integer(text, at)
    if first == b'':
        raise BadBencode('B1', len(text))
    if first not in (b'l', b'd'):
        raise BadBencode('B2', at)
    if nesting == MAX_NESTING:
        raise BadBencode('B8', at)
    return (read_list if first == b'l' else read_dictionary)(text, at + 1, nesting + 1)


INTEGER_RUN = re.compile(rb'[-0-9]*')
INTEGER = re.compile(rb'0|-?[1-9][0-9]*')
DIGITS = re.compile(rb'[0-9]*')
LENGTH = re.compile(rb'(0|[1-9][0-9]{0,19}):')


def read_integer(text, at):
    end = INTEGER_RUN.match(text, at + 1).end()
    run = text[at + 1:end]
    if end == len(text):
        raise BadBencode('B1', len(text))
    if text[end:end + 1] != b'e' or not INTEGER.fullmatch(run):
        raise BadBencode('B3', at)
    # Python refuses to read very long numbers; any of over 20 bytes is out of range.
    if len(run) > 20 or not -2 ** 63 <= int(run) < 2 ** 63:
        raise BadBencode('B4', at)
    return int(run), end + 1


def read_bytes(text, at):
    match = LENGTH.match(text, at)
    if match:
        start = match.end()
        end = start + int(match[1])
        if end <= len(text):
            return text[start:end], end
    raise bytes_fault(text, at)


def bytes_fault(text, at):
    """The fault of what begins with a digit and is no byte string. A length of over 20 digits is beyond any text."""
    end = DIGITS.match(text, at).end()
    run = text[at:end]
    if end < len(text) and (text[end:end + 1] != b':' or (run.startswith(b'0') and len(run) > 1)):
        return BadBencode('B5', at)
    return BadBencode('B1', len(text))


def read_list(text, at, nesting):
    items = []
    while text[at:at + 1] != b'e':
        item, at = read_value(text, at, nesting)
        items.append(item)
    return items, at + 1


def read_dictionary(text, at, nesting):
    pairs, last = {}, None
    while (first := text[at:at + 1]) != b'e':
        if first == b'':
            raise BadBencode('B1', len(text))
        if not first.isdigit():
            raise BadBencode('B6', at)
        key, after = read_bytes(text, at)
        if last is not None and key <= last:
            raise BadBencode('B7', at)
        pairs[key], at = read_value(text, after, nesting)
        last = key
    return pairs, at + 1


# Hashes and trees (BEP 52, "pieces root", "piece layers").

def sha256(data):
    return hashlib.sha256(data).digest()


def sha1(data):
    return hashlib.sha1(data).digest()


ZERO = [bytes(32)]
for _level in range(40):
    ZERO.append(sha256(ZERO[-1] * 2))


def rounded(length, piece_length):
    return -(-length // piece_length) * piece_length


def piece_count(length, piece_length):
    return -(-length // piece_length)


def leaves(content):
    return [sha256(content[at:at + BLOCK]) for at in range(0, len(content), BLOCK)]


def parents(hashes, level):
    """The next layer above; a hash without a sibling has the zero subtree of its level."""
    if len(hashes) % 2:
        hashes = hashes + [ZERO[level]]
    return [sha256(hashes[i] + hashes[i + 1]) for i in range(0, len(hashes), 2)]


def root_of(hashes, level=0):
    while len(hashes) > 1:
        hashes, level = parents(hashes, level), level + 1
    return hashes[0]


def piece_level(piece_length):
    return (piece_length // BLOCK).bit_length() - 1


def layer_of(content, piece_length):
    """One hash for each piece; a file of at most one piece has none."""
    if len(content) <= piece_length:
        return []
    hashes = leaves(content)
    for level in range(piece_level(piece_length)):
        hashes = parents(hashes, level)
    return hashes


def piece_hash(data, file_length, piece_length):
    """The hash of a piece of a file: over a whole piece in a longer file, else over the least tree of its blocks."""
    hashes, level = leaves(data), 0
    while len(hashes) > 1 or (file_length > piece_length and level < piece_level(piece_length)):
        hashes, level = parents(hashes, level), level + 1
    return hashes[0]


# Names (the profile's six faults) and piece lengths.

def name_fault(name):
    if name == b'':
        return 'N1'
    if name == b'.':
        return 'N2'
    if name == b'..':
        return 'N3'
    if b'/' in name:
        return 'N4'
    if b'\0' in name:
        return 'N5'
    try:
        name.decode('utf-8')
    except UnicodeDecodeError:
        return 'N6'
    return None


def is_power(number, least, most):
    return least <= number <= most and number & (number - 1) == 0


# Making.

Order = namedtuple('Order', 'kind single name piece_length announce is_private how workers span tail',
                   defaults=(False,))


def order_fault(order, paths):
    """The first refusal that needs no byte of a file."""
    if not is_power(order.piece_length, BLOCK, MAX_PIECE_LENGTH):
        return 'M1'
    if order.how != 'one' and not 1 <= order.workers <= 64:
        return 'M2'
    if not is_power(order.span, 1, 1024):
        return 'M3'
    # A unit that goes through a stream is held whole.
    if order.how == 'streams' and order.span * order.piece_length > MAX_UNIT_LENGTH:
        return 'M3'
    if not paths:
        return 'L4'
    if order.kind == 'hybrid' and not order.single and any(path[0] == b'.pad' for path in paths):
        return 'Y1'
    return None


def make(files, order, letters=None):
    """The torrent of files, which are pairs of a path (a tuple of names) and a content. By path, `letters` has what
    `attr` says of a file (BEP 47): `h`, `x` or `hx`."""
    letters = letters or {}
    files = sorted(files)
    fault = name_fault(order.name) or order_fault(order, [path for path, _ in files])
    if fault:
        raise Refused(fault)
    root = {}
    if order.announce is not None:
        root[b'announce'] = order.announce
    root[b'info'] = info_of(files, order, letters)
    if order.kind != 'v1':
        root[b'piece layers'] = layers_of(files, order.piece_length)
    return encode(root)


def info_of(files, order, letters):
    info = {b'name': order.name, b'piece length': order.piece_length}
    if order.is_private:
        info[b'private'] = 1
    if order.kind != 'v1':
        info[b'meta version'] = 2
        info[b'file tree'] = tree_of(files, letters)
    if order.kind != 'v2':
        is_aligned = order.kind == 'hybrid' and not order.single
        entries = entries_of(files, order.piece_length, is_aligned, order.tail)
        joined = b''.join(bytes(length) if content is None else content for _, length, content in entries)
        info[b'pieces'] = b''.join(sha1(joined[at:at + order.piece_length])
                                   for at in range(0, len(joined), order.piece_length))
        if order.single:
            info[b'length'] = len(joined)
            info.update(attr_of(letters.get(files[0][0])))
        else:
            info[b'files'] = [spelled_entry(path, length, content, letters) for path, length, content in entries]
    return info


def attr_of(letters):
    """The key `attr` where there are letters."""
    return {b'attr': letters} if letters else {}


def tree_of(files, letters):
    tree = {}
    for path, content in files:
        folder = tree
        for name in path:
            folder = folder.setdefault(name, {})
        folder[b''] = {b'length': len(content), **attr_of(letters.get(path))}
        if content:
            folder[b''][b'pieces root'] = root_of(leaves(content))
    return tree


def layers_of(files, piece_length):
    layers = {}
    for _, content in files:
        if len(content) > piece_length:
            layers.setdefault(root_of(leaves(content)), b''.join(layer_of(content, piece_length)))
    return layers


def entries_of(files, piece_length, is_aligned, has_tail):
    """Path, length and content of each entry of `files`; padding (BEP 47) has no content."""
    last = max((i for i, (_, content) in enumerate(files) if content), default=-1)
    entries = []
    for i, (path, content) in enumerate(files):
        entries.append((path, len(content), content))
        lacking = rounded(len(content), piece_length) - len(content)
        if is_aligned and lacking and (i < last or has_tail):
            entries.append(((b'.pad', b'%d' % lacking), lacking, None))
    return entries


def spelled_entry(path, length, content, letters):
    attr = b'p' if content is None else letters.get(path)
    return {b'length': length, b'path': list(path), **attr_of(attr)}


def letters_in(text, paths):
    """By path the letters that a text gives to these files (docs/MANUAL.md); None where it is no such text."""
    letters = {}
    for line in text.split(b'\n')[:-1]:
        attr, _, spelled = line.partition(b' ')
        path = tuple(spelled.split(b'/'))
        if attr not in (b'h', b'x', b'hx') or path in letters or path not in paths:
            return None
        letters[path] = attr
    return letters if text == b'' or text.endswith(b'\n') else None


# Judging. Each condition is a function of a torrent; the first that holds, in their order, is told. What a condition
# takes for granted was looked for by those before it.

class Torrent:
    """What the conditions and the lines ask of a torrent; its tree stays as it is."""

    def __init__(self, root):
        self.root = root
        self.info = root.get(b'info') if isinstance(root, dict) else None

    @property
    def kind(self):
        if b'meta version' not in self.info:
            return 'v1'
        return 'hybrid' if b'pieces' in self.info else 'v2'

    @property
    def has_list(self):
        return self.kind != 'v2'

    @property
    def has_tree(self):
        return self.kind != 'v1'

    @property
    def piece_length(self):
        return self.info[b'piece length']

    @cached_property
    def info_bytes(self):
        return encode(self.info)

    @cached_property
    def entries(self):
        """Of the v1 side: path, length, and whether it is padding."""
        if not self.has_list:
            return []
        if b'length' in self.info:
            return [((self.info[b'name'],), self.info[b'length'], False)]
        entries = []
        for entry in self.info[b'files']:
            is_padding = b'p' in entry.get(b'attr', b'')
            path = None if is_padding else tuple(entry[b'path'])
            entries.append((path, entry[b'length'], is_padding))
        return entries

    @cached_property
    def listed(self):
        return [(path, length) for path, length, is_padding in self.entries if not is_padding]

    @cached_property
    def nodes(self):
        """Of the file tree: each dictionary of it with the path that leads there, in key order."""
        return nodes_below((), self.info[b'file tree']) if self.has_tree else []

    @cached_property
    def tree_files(self):
        return [(path, node[b'']) for path, node in self.nodes if b'' in node]

    @cached_property
    def lengths(self):
        told = [length for _, length, _ in self.entries]
        return told + [properties[b'length'] for _, properties in self.tree_files]

    @cached_property
    def files(self):
        """The files that the torrent describes, each with its root and layer where there is a tree."""
        if not self.has_tree:
            return [ViewFile(path, length, None, []) for path, length in self.listed]
        files = []
        for path, properties in self.tree_files:
            length = properties[b'length']
            root = properties[b'pieces root'] if length else None
            layer = hashes_in(self.root[b'piece layers'][root]) if length > self.piece_length else []
            files.append(ViewFile(path, length, root, layer))
        return files

    @cached_property
    def long_files(self):
        return [p for _, p in self.tree_files if p[b'length'] > self.piece_length]


def nodes_below(path, node):
    nodes = [(path, node)]
    for name in sorted(node):
        if name != b'' and isinstance(node[name], dict):
            nodes += nodes_below(path + (name,), node[name])
    return nodes


def is_number(item):
    return isinstance(item, int)


def meta_version(torrent):
    return torrent.info.get(b'meta version', 2) != 2


def bad_piece_length(torrent):
    length = torrent.info.get(b'piece length')
    if not is_number(length) or not 1 <= length <= MAX_PIECE_LENGTH:
        return True
    return torrent.has_tree and not is_power(length, BLOCK, MAX_PIECE_LENGTH)


def bad_name(torrent):
    name = torrent.info.get(b'name')
    return not isinstance(name, bytes) or name_fault(name) is not None


def length_and_files(torrent):
    return torrent.has_list and (b'length' in torrent.info) == (b'files' in torrent.info)


def file_shape(torrent):
    return (torrent.has_list and list_shape(torrent.info)) or (torrent.has_tree and tree_shape(torrent))


def list_shape(info):
    if b'length' in info:
        return not is_number(info[b'length']) or not isinstance(info.get(b'attr', b''), bytes)
    return not isinstance(info[b'files'], list) or any(entry_shape(entry) for entry in info[b'files'])


def entry_shape(entry):
    if not isinstance(entry, dict) or not is_number(entry.get(b'length')):
        return True
    attr = entry.get(b'attr', b'')
    if not isinstance(attr, bytes):
        return True
    return b'p' not in attr and not is_path(entry.get(b'path'))


def is_path(path):
    return isinstance(path, list) and path != [] and all(
        isinstance(name, bytes) and name_fault(name) is None for name in path)


def tree_shape(torrent):
    if not isinstance(torrent.info.get(b'file tree'), dict):
        return True
    return any(node_shape(node) for _, node in torrent.nodes)


def node_shape(node):
    for name, value in node.items():
        if not isinstance(value, dict):
            return True
        if name == b'':
            if not is_number(value.get(b'length')) or not isinstance(value.get(b'attr', b''), bytes):
                return True
        elif name_fault(name):
            return True
    return False


def negative_length(torrent):
    return any(length < 0 for length in torrent.lengths)


def duplicate(torrent):
    paths = [path for path, _ in torrent.listed]
    return len(set(paths)) < len(paths)


def file_and_folder(torrent):
    paths = {path for path, _ in torrent.listed}
    return any(path[:i] in paths for path in paths for i in range(1, len(path)))


def no_files(torrent):
    if torrent.has_list and not torrent.listed:
        return True
    return torrent.has_tree and not torrent.tree_files


def too_large(torrent):
    if any(length > MAX_FILE_LENGTH for length in torrent.lengths):
        return True
    listed = [length for _, length in torrent.listed]
    in_tree = [properties[b'length'] for _, properties in torrent.tree_files]
    sums = [sum(rounded(length, 1 << 30) for length in lengths) for lengths in (listed, in_tree)]
    return max(sums) > MAX_TOTAL or sum(length for _, length, _ in torrent.entries) > MAX_TOTAL


def symlink(torrent):
    attrs = [properties.get(b'attr', b'') for _, properties in torrent.tree_files]
    if torrent.has_list and b'length' in torrent.info:
        attrs.append(torrent.info.get(b'attr', b''))
    elif torrent.has_list:
        attrs += [entry.get(b'attr', b'') for entry in torrent.info[b'files']]
    return any(b'l' in attr for attr in attrs)


def pieces_length(torrent):
    if not torrent.has_list:
        return False
    pieces = torrent.info.get(b'pieces')
    total = sum(length for _, length, _ in torrent.entries)
    return not isinstance(pieces, bytes) or len(pieces) != 20 * piece_count(total, torrent.piece_length)


def mixed_node(torrent):
    return any(b'' in node and (path == () or len(node) > 1) for path, node in torrent.nodes)


def root_hash(torrent):
    def has_root(properties):
        root = properties.get(b'pieces root')
        return isinstance(root, bytes) and len(root) == 32
    return any(properties[b'length'] > 0 and not has_root(properties) for _, properties in torrent.tree_files)


def layers_absent(torrent):
    if not torrent.has_tree:
        return False
    if b'piece layers' not in torrent.root:
        return torrent.long_files != []
    return not isinstance(torrent.root[b'piece layers'], dict)


def layer_absent(torrent):
    return any(not isinstance(torrent.root[b'piece layers'].get(properties[b'pieces root']), bytes)
               for properties in torrent.long_files)


def layer_length(torrent):
    return any(len(torrent.root[b'piece layers'][properties[b'pieces root']])
               != 32 * piece_count(properties[b'length'], torrent.piece_length)
               for properties in torrent.long_files)


def hashes_in(layer):
    return [layer[at:at + 32] for at in range(0, len(layer), 32)]


def layer_root(torrent):
    level = piece_level(torrent.piece_length) if torrent.has_tree else 0
    roots = {properties[b'pieces root'] for properties in torrent.long_files}
    return any(root_of(hashes_in(torrent.root[b'piece layers'][root]), level) != root for root in roots)


def files_differ(torrent):
    in_tree = [(path, properties[b'length']) for path, properties in torrent.tree_files]
    return torrent.kind == 'hybrid' and torrent.listed != in_tree


def misaligned(torrent):
    if torrent.kind != 'hybrid':
        return False
    at, wanted, lacking, padding = 0, 0, 0, 0
    for _, length, is_padding in torrent.entries:
        if is_padding:
            padding += length
        elif length > 0:
            if at != wanted:
                return True
            wanted += rounded(length, torrent.piece_length)
            lacking = rounded(length, torrent.piece_length) - length
            padding = 0
        at += length
    # Now `padding` is what follows the last file with bytes, or all there is; where no file has bytes none is lacking.
    return padding not in (0, lacking)


def attr_differs(torrent):
    """Whether a hybrid has `attr` of a file on both sides, and `x` or `h` on one of them alone."""
    if torrent.kind != 'hybrid':
        return False
    def letters(described):
        return {letter for letter in b'xh' if letter in described[b'attr']} if b'attr' in described else None
    if b'length' in torrent.info:
        listed = [torrent.info]
    else:
        listed = [entry for entry in torrent.info[b'files'] if b'p' not in entry.get(b'attr', b'')]
    pairs = [(letters(one), letters(other)) for one, (_, other) in zip(listed, torrent.tree_files)]
    return any(None not in pair and pair[0] != pair[1] for pair in pairs)


CONDITIONS = [
    ('V2', lambda torrent: not isinstance(torrent.root, dict)),
    ('V3', lambda torrent: not isinstance(torrent.info, dict)),
    ('V4', meta_version), ('V5', bad_piece_length), ('V6', bad_name), ('V7', length_and_files), ('V8', file_shape),
    ('V9', negative_length), ('V10', duplicate), ('V11', file_and_folder), ('V12', no_files), ('V13', too_large),
    ('V14', symlink), ('V15', pieces_length), ('V16', mixed_node), ('V17', root_hash), ('V18', layers_absent),
    ('V19', layer_absent), ('V20', layer_length), ('V21', layer_root), ('V22', files_differ), ('V23', misaligned),
    ('V25', attr_differs),
]


def judge(text):
    """The torrent that the bytes are, or Refused."""
    try:
        torrent = Torrent(decode(text))
    except BadBencode as fault:
        more = f' {fault.code} {NAMES[fault.code]} at {fault.offset}'
        raise Refused('V1', more) from None
    for code, holds in CONDITIONS:
        if holds(torrent):
            raise Refused(code)
    return torrent


# What a torrent describes.

ViewFile = namedtuple('ViewFile', 'path length root layer')


def count_pieces(torrent):
    if not torrent.has_tree:
        return len(torrent.info[b'pieces']) // 20
    return sum(piece_count(file.length, torrent.piece_length) for file in torrent.files)


SHOWN = [b'\\x%02x' % byte if byte < 32 or byte in (127, 92) else bytes([byte]) for byte in range(256)]


def escaped(name):
    return b''.join([SHOWN[byte] for byte in name])


def info_hashes(torrent):
    info = torrent.info_bytes
    return (sha1(info).hex().encode() if torrent.has_list else None,
            sha256(info).hex().encode() if torrent.has_tree else None)


def check_lines(torrent):
    files = torrent.files
    lines = [b'kind ' + torrent.kind.encode(), b'name ' + escaped(torrent.info[b'name']),
             b'piece length %d' % torrent.piece_length, b'pieces %d' % count_pieces(torrent), b'files %d' % len(files)]
    lines += [b'%d %s' % (file.length, b'/'.join(escaped(name) for name in file.path)) for file in files]
    v1, v2 = info_hashes(torrent)
    if v1:
        lines.append(b'btih ' + v1)
    if v2:
        lines.append(b'btmh 1220' + v2)
    return b''.join(line + b'\n' for line in lines)


def root_lines(torrent):
    return b''.join(b'root %s %d\n' % (file.root.hex().encode(), number)
                    for number, file in enumerate(torrent.files) if file.root)


def magnet(torrent):
    v1, v2 = info_hashes(torrent)
    topics = ([b'xt=urn:btih:' + v1] if v1 else []) + ([b'xt=urn:btmh:1220' + v2] if v2 else [])
    return b'magnet:?' + b'&'.join(topics) + b'\n'


# Rechecking. `contents` has the bytes of each file in the torrent's order, or None.

def list_pieces(torrent, contents):
    """The bytes of each v1 piece; None where some are missing."""
    parts = []
    waiting = iter(contents)
    for _, length, is_padding in torrent.entries:
        content = b'' if is_padding else (next(waiting) or b'')
        there = length if is_padding else min(len(content), length)
        parts.append((length, is_padding, content, there))
    pieces, piece, is_whole, room = [], [], True, torrent.piece_length
    for length, is_padding, content, there in parts:
        at = 0
        while at < length:
            step = min(room, length - at)
            is_whole = is_whole and at + step <= there
            piece.append(bytes(step) if is_padding else content[at:at + step])
            at, room = at + step, room - step
            if room == 0:
                pieces.append(b''.join(piece) if is_whole else None)
                piece, is_whole, room = [], True, torrent.piece_length
    if room < torrent.piece_length:
        pieces.append(b''.join(piece) if is_whole else None)
    return pieces


def list_marks(torrent, contents):
    hashes = torrent.info[b'pieces']
    return [piece is not None and sha1(piece) == hashes[20 * i:20 * i + 20]
            for i, piece in enumerate(list_pieces(torrent, contents))]


def tree_marks(torrent, contents):
    marks, p = [], torrent.piece_length
    for file, content in zip(torrent.files, contents):
        wanted = file.layer or [file.root]
        for i in range(piece_count(file.length, p)):
            end = min((i + 1) * p, file.length)
            is_there = content is not None and len(content) >= end
            marks.append(is_there and piece_hash(content[i * p:end], file.length, p) == wanted[i])
    return marks


def side_by_side(*lists):
    """The items of lists, which have to be of one length, at each index."""
    if len({len(one) for one in lists}) > 1:
        raise ValueError('lists of several lengths')
    return zip(*lists)


def marks_of(torrent, contents):
    sides = []
    if torrent.has_list:
        sides.append(list_marks(torrent, contents))
    if torrent.has_tree:
        sides.append(tree_marks(torrent, contents))
    return [all(of_sides) for of_sides in side_by_side(*sides)]


def recheck_lines(marks):
    bits = bytearray(-(-len(marks) // 8))
    for i, is_right in enumerate(marks):
        bits[i // 8] |= is_right << (7 - i % 8)
    return b'pieces %d of %d\nbits %s\n' % (sum(marks), len(marks), bits.hex().encode())


# Which pieces have bytes of a file, and what is told of it.

def spans_of(torrent):
    """The numbers of the pieces that have bytes of each file, in the torrent's order; of an empty one an empty range,
    which begins with the piece that a byte there would be in."""
    spans, p, start = [], torrent.piece_length, 0
    if torrent.has_tree:
        for file in torrent.files:
            count = piece_count(file.length, p)
            spans.append(range(start, start + count))
            start += count
        return spans
    for _, length, is_padding in torrent.entries:
        if not is_padding:
            spans.append(range(start // p, -(-(start + length) // p) if length else start // p))
        start += length
    return spans


def starts_of(torrent):
    """The offset of each file's first byte in the bytes that are cut into pieces, in the torrent's order."""
    if torrent.has_tree:
        return [span.start * torrent.piece_length for span in spans_of(torrent)]
    starts, start = [], 0
    for _, length, is_padding in torrent.entries:
        if not is_padding:
            starts.append(start)
        start += length
    return starts


def bad_ranges(torrent, marks):
    """Of each file, in the torrent's order, its bytes in pieces that do not hold: the first, and the end."""
    length, told = torrent.piece_length, []
    for file, pieces, start in side_by_side(torrent.files, spans_of(torrent), starts_of(torrent)):
        ranges = []
        for is_right, together in groupby(pieces, marks.__getitem__):
            numbers = list(together)
            if not is_right:
                first, end = numbers[0] * length - start, (numbers[-1] + 1) * length - start
                ranges.append([max(first, 0), min(end, file.length)])
        told.append(ranges)
    return told


FileFound = namedtuple('FileFound', 'state good pieces there told path')


def files_found(torrent, contents):
    """What is told of each file; where there is a tree, by the tree alone."""
    marks = (tree_marks if torrent.has_tree else list_marks)(torrent, contents)
    found = []
    for file, span, content in side_by_side(torrent.files, list(spans_of(torrent)), contents):
        good = sum(marks[i] for i in span)
        there = None if content is None else len(content)
        state = ('missing' if there is None else 'short' if there < file.length else 'bad' if good < len(span)
                 else 'whole')
        found.append(FileFound(state, good, len(span), there, file.length, file.path))
    return found


def found_line(found):
    there = b'-' if found.there is None else b'%d' % found.there
    return b'%s %d %d %s %d %s\n' % (found.state.encode(), found.good, found.pieces, there, found.told,
                                     b'/'.join(escaped(name) for name in found.path))


def found_lines(found):
    return b''.join(found_line(file) for file in found)


def not_whole(found):
    return [file for file in found if file.state != 'whole']


def ended_paths(paths):
    return b''.join(b'/'.join(path) + b'\0' for path in paths)


# What is told to programs, as what JSON has for it.

def path_record(path):
    return [name.decode() for name in path]


def text_record(value):
    """Bytes as text, if they are text; else as a line of ASCII has them."""
    try:
        return value.decode()
    except UnicodeDecodeError:
        return ''.join((b'\\x%02x' % byte if byte > 127 else SHOWN[byte]).decode() for byte in value)


def texts_record(value):
    """A list of byte strings; None for anything else."""
    if isinstance(value, list) and all(isinstance(item, bytes) for item in value):
        return [text_record(item) for item in value]
    return None


def tiers_record(value):
    """A list of lists of byte strings (BEP 12); None for anything else."""
    tiers = [texts_record(tier) for tier in value] if isinstance(value, list) else [None]
    return None if None in tiers else tiers


def letters_of(torrent):
    """For each file, whether it has an `x`, and whether it has an `h`; by the tree if it has an `attr` there."""
    info = torrent.info
    listed = []
    if torrent.has_list:
        entries = [info] if b'length' in info else [e for e in info[b'files'] if b'p' not in e.get(b'attr', b'')]
        listed = [entry.get(b'attr', b'') for entry in entries]
    told = listed
    if torrent.has_tree:
        told = [properties.get(b'attr', listed[i] if listed else b'')
                for i, (_, properties) in enumerate(torrent.tree_files)]
    return [(b'x' in attr, b'h' in attr) for attr in told]


def file_record(file, span, letters):
    return {'length': file.length, 'path': path_record(file.path), 'root': file.root and file.root.hex(),
            'exec': letters[0], 'hidden': letters[1], 'first_piece': span.start, 'pieces': len(span)}


def check_record(torrent):
    v1, v2 = info_hashes(torrent)
    files = [file_record(*row) for row in side_by_side(torrent.files, spans_of(torrent), letters_of(torrent))]
    announce, urls = torrent.root.get(b'announce'), torrent.root.get(b'url-list')
    return {'kind': torrent.kind, 'name': torrent.info[b'name'].decode(), 'piece_length': torrent.piece_length,
            'pieces': count_pieces(torrent), 'files': files, 'btih': v1 and v1.decode(),
            'btmh': v2 and '1220' + v2.decode(), 'private': torrent.info.get(b'private') == 1,
            'total': sum(file.length for file in torrent.files),
            'announce': text_record(announce) if isinstance(announce, bytes) else None,
            'announce_list': tiers_record(torrent.root.get(b'announce-list')),
            'url_list': texts_record([urls] if isinstance(urls, bytes) else urls)}


def recheck_record(torrent, marks, found):
    """Without files where None is found."""
    v1, v2 = info_hashes(torrent)
    bad = {file.path: ranges for file, ranges in side_by_side(torrent.files, bad_ranges(torrent, marks))}
    files = found and [{'state': file.state, 'good': file.good, 'pieces': file.pieces, 'there': file.there,
                        'told': file.told, 'path': path_record(file.path), 'bad': bad[file.path]} for file in found]
    return {'good': sum(marks), 'pieces': len(marks), 'bits': recheck_lines(marks).split()[-1].decode()
            if marks else '', 'files': files, 'btih': v1 and v1.decode(), 'btmh': v2 and '1220' + v2.decode(),
            'kind': torrent.kind, 'name': torrent.info[b'name'].decode(), 'piece_length': torrent.piece_length}


# Proofs of pieces.

def prove(torrent, number, index):
    """The text of the proof of a piece of a file."""
    files = torrent.files
    if number >= len(files):
        raise Refused('P1')
    file = files[number]
    if file.root is None:
        raise Refused('P2')
    if index >= piece_count(file.length, torrent.piece_length):
        raise Refused('P1')
    hashes, level, at, siblings = file.layer or [file.root], piece_level(torrent.piece_length), index, []
    own = hashes[index]
    while len(hashes) > 1:
        siblings.append(hashes[at ^ 1] if at ^ 1 < len(hashes) else ZERO[level])
        hashes, level, at = parents(hashes, level), level + 1, at // 2
    lines = [f'index {index}', f'hash {own.hex()}'] + [f'sibling {sibling.hex()}' for sibling in siblings]
    return ''.join(line + '\n' for line in lines).encode()


PROOF = re.compile(rb'index (0|[1-9][0-9]{0,19})\nhash ([0-9a-f]{64})\n((?:sibling [0-9a-f]{64}\n){0,36})')


def read_proof(text):
    match = PROOF.fullmatch(text)
    if not match or int(match[1]) >= 1 << 64:
        return None
    siblings = [bytes.fromhex(line.split()[1].decode()) for line in match[3].splitlines()]
    return int(match[1]), bytes.fromhex(match[2].decode()), siblings


def holds(root, length, piece_length, proof):
    index, own, siblings = proof
    if length > piece_length:
        count, level = piece_count(length, piece_length), piece_level(piece_length)
    else:
        count, level = 1, (piece_count(length, BLOCK) - 1).bit_length()
    if index >= count or len(siblings) != (count - 1).bit_length():
        return False
    for j, sibling in enumerate(siblings):
        beside = (index >> j) ^ 1
        if beside << j >= count and sibling != ZERO[level + j]:
            return False
        own = sha256(sibling + own if (index >> j) & 1 else own + sibling)
    return own == root


NUMBER = re.compile(r'0|[1-9][0-9]*', re.ASCII)


def verify(root, length, piece_length, text):
    """What `verify` answers to these three words and the proof's text: a line, or the line of a fault."""
    if not re.fullmatch('[0-9a-fA-F]{64}', root):
        return 'bad root'
    if not NUMBER.fullmatch(length) or len(length) > 20 or not 1 <= int(length) <= MAX_FILE_LENGTH:
        return 'bad length'
    if not NUMBER.fullmatch(piece_length) or len(piece_length) > 20 \
            or not is_power(int(piece_length), BLOCK, MAX_PIECE_LENGTH):
        return 'bad piece length'
    proof = read_proof(text)
    if proof is None:
        return 'bad proof'
    return 'yes' if holds(bytes.fromhex(root), int(length), int(piece_length), proof) else 'no'
