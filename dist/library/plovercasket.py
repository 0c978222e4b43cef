"""Judges BitTorrent metainfo files (torrents) by the library libplovercasket: version 1 (BEP 3), version 2 (BEP 52) and
hybrids. One file, which needs Python 3.8 and the library; put it into your own program as it is.

    import plovercasket

    try:
        described = plovercasket.check(torrent)
    except plovercasket.Refused as why:
        print(why)                                  # V1 Bencode B7 KeyOrder at 6
    else:
        print(described["name"], plovercasket.magnet(torrent))

The library is looked for where PLOVERCASKET_LIBRARY says, else beside this file, else where the system has its
libraries. Functions may be called by any number of threads, and a call lets other threads of Python run.
"""
import ctypes
import json
import os
from typing import Any, Dict, List, NamedTuple, Optional, Sequence, Tuple

__all__ = ["BadArgument", "Hashes", "Refused", "check", "check_text", "info_hashes", "magnet", "verify", "verify_bytes"]

_REFUSALS = (
    "Bencode RootShape InfoShape MetaVersion PieceLength Name LengthAndFiles FileShape FileLength Duplicate "
    "FileAndFolder NoFiles TooLarge Symlink PiecesLength MixedNode RootHash LayersAbsent LayerAbsent LayerLength "
    "LayerRoot FilesDiffer Alignment Memory AttrDiffer"
).split()
_FAULTS = "Truncated BadByte BadInteger IntegerRange BadLength KeyNotBytes KeyOrder TooDeep Trailing".split()
_OK, _BENCODE, _MEMORY, _NO_ROOM, _NOT_PROVED, _BAD_LENGTH, _BAD_PIECE_LENGTH = 0, 1, 24, 100, 101, 102, 103


class Refused(ValueError):
    """The bytes are no torrent. The text is the one that the program tells, as `V12 NoFiles`."""

    def __init__(self, number: int, offset: int, fault: int) -> None:
        #: The number of the refusal: 1 of V1, up to 25 of V25.
        self.number = number
        #: Of V1: the offset of the first fault in bytes, and its number, 1 of B1; else None.
        self.offset: Optional[int] = offset if number == _BENCODE else None
        self.fault: Optional[int] = fault if number == _BENCODE else None
        name = _REFUSALS[number - 1] if number <= len(_REFUSALS) else "Refused"
        text = f"V{number} {name}"
        if number == _BENCODE:
            text += f" B{fault} {_FAULTS[fault - 1]} at {offset}"
        super().__init__(text)

    def __reduce__(self) -> Tuple[Any, ...]:
        """Pickled by the numbers, so that a worker of multiprocessing can raise it."""
        return Refused, (self.number, self.offset or 0, self.fault or 0)


class BadArgument(ValueError):
    """There can be no file of this length, or no torrent of this piece length."""


class Hashes(NamedTuple):
    """The info hashes of a torrent: None for one that it has not."""

    #: The SHA-1 of `info`: 20 bytes.
    v1: Optional[bytes]
    #: The SHA-256 of `info`: 32 bytes.
    v2: Optional[bytes]


class _Outcome(ctypes.Structure):
    _fields_ = [("length", ctypes.c_size_t), ("offset", ctypes.c_size_t), ("fault", ctypes.c_uint32)]


class _Hashes(ctypes.Structure):
    _fields_ = [("has_v1", ctypes.c_bool), ("v1", ctypes.c_uint8 * 20), ("has_v2", ctypes.c_bool),
                ("v2", ctypes.c_uint8 * 32)]


def _load() -> ctypes.CDLL:
    """The library, with the types of its functions."""
    beside = os.path.join(os.path.dirname(os.path.abspath(__file__)), "libplovercasket.so")
    place = os.environ.get("PLOVERCASKET_LIBRARY") or (beside if os.path.exists(beside) else "libplovercasket.so.1")
    library = ctypes.CDLL(place)
    size, text, word = ctypes.c_size_t, ctypes.c_char_p, ctypes.c_uint64
    outcome = ctypes.POINTER(_Outcome)
    for function, types in (
        (library.plover_check, [text, size, text, size, outcome]),
        (library.plover_magnet, [text, size, text, size, outcome]),
        (library.plover_info_hashes, [text, size, ctypes.POINTER(_Hashes), outcome]),
        (library.plover_verify, [text, word, word, word, text, text, size]),
        (library.plover_verify_bytes, [text, word, word, word, text, size, text, size]),
    ):
        function.argtypes, function.restype = types, ctypes.c_uint32
    return library


_library = _load()


def _told(answer: int, outcome: _Outcome) -> None:
    """Raises what an answer that is no "yes" stands for."""
    if answer == _MEMORY:
        raise MemoryError("libplovercasket")
    if answer != _OK:
        raise Refused(answer, outcome.offset, outcome.fault)


def _text(function: Any, torrent: bytes, room: int) -> str:
    """The text that a function tells of a torrent. If it is longer than the room, the room is made anew."""
    outcome = _Outcome()
    while True:
        report = ctypes.create_string_buffer(room)
        answer = function(torrent, len(torrent), report, room, ctypes.byref(outcome))
        if answer != _NO_ROOM:
            _told(answer, outcome)
            return report.raw[: outcome.length].decode()
        room = outcome.length


def check_text(torrent: bytes) -> str:
    """The JSON object that `tor check --json` prints of a torrent, without its line feed. Raises Refused if the bytes
    are none, and MemoryError if memory is wanting."""
    return _text(_library.plover_check, torrent, len(torrent) + 1024)


def check(torrent: bytes) -> Dict[str, Any]:
    """What a torrent describes, by the keys `kind` (`v1`, `v2` or `hybrid`), `name`, `piece_length` (bytes), `pieces`
    (how many), `total` (the bytes of all files), `private`, `btih`, `btmh` (hexadecimal digits or None), `announce`,
    `announce_list`, `url_list` (trackers and web seeds, or None), and `files`: a list of `path` (a list of names),
    `length` (bytes), `root` (hexadecimal digits or None), `exec`, `hidden`, and `first_piece` and `pieces`, the pieces
    with bytes of the file. docs/JSON.md says more of each. Raises as check_text does.

    The list has the whole path of each file, so of a hostile torrent it may take memory by the square of its length. If
    you need no list, call info_hashes, which judges the same in proportion to the torrent."""
    return json.loads(check_text(torrent))


def magnet(torrent: bytes) -> str:
    """The magnet link of a torrent. Raises as check_text does."""
    return _text(_library.plover_magnet, torrent, 256)


def info_hashes(torrent: bytes) -> Hashes:
    """The info hashes of a torrent. Raises as check_text does."""
    hashes, outcome = _Hashes(), _Outcome()
    _told(_library.plover_info_hashes(torrent, len(torrent), ctypes.byref(hashes), ctypes.byref(outcome)), outcome)
    return Hashes(bytes(hashes.v1) if hashes.has_v1 else None, bytes(hashes.v2) if hashes.has_v2 else None)


def _holds(answer: int) -> bool:
    if answer == _MEMORY:
        raise MemoryError("libplovercasket")
    if answer == _BAD_LENGTH:
        raise BadArgument("bad length")
    if answer == _BAD_PIECE_LENGTH:
        raise BadArgument("bad piece length")
    return answer == _OK


def _hash(value: bytes) -> bytes:
    if len(value) != 32:
        raise BadArgument("a hash has 32 bytes")
    return value


def _word(number: int) -> int:
    """A number as 64 bits. Of one above them it is as of the greatest: there is no such length, and no such piece."""
    if number < 0:
        raise BadArgument("a negative number")
    return min(number, (1 << 64) - 1)


def _siblings(siblings: Sequence[bytes]) -> List[Any]:
    return [b"".join(map(_hash, siblings)), len(siblings)]


def verify(root: bytes, length: int, piece_length: int, index: int, hash: bytes, siblings: Sequence[bytes]) -> bool:
    """Whether `hash` is that of piece `index`, from 0, of the file of `length` bytes whose `pieces root` is `root`, as
    its siblings say, lowest first (BEP 52, "piece layers"). Hashes have 32 bytes. Raises BadArgument if there can be no
    such file, and MemoryError if memory is wanting."""
    return _holds(_library.plover_verify(_hash(root), *map(_word, (length, piece_length, index)), _hash(hash),
                                         *_siblings(siblings)))


def verify_bytes(root: bytes, length: int, piece_length: int, index: int, piece: bytes,
                 siblings: Sequence[bytes]) -> bool:
    """The same of the bytes of the piece in place of their hash. A piece of another length is none of the file."""
    return _holds(_library.plover_verify_bytes(_hash(root), *map(_word, (length, piece_length, index)), piece,
                                               len(piece), *_siblings(siblings)))
