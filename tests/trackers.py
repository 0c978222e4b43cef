"""Torrents with another tracker, or with none: worked out from BEP 3 ("metainfo files", "bencoding") and BEP 12."""
from support import done, expect, refused

# The `info` of one empty file, which all these torrents have.
INFO = b'4:infod6:lengthi0e4:name1:a12:piece lengthi1e6:pieces0:e'

# A torrent, the tracker that it is to have, and what is to come of it.
ROWS = [
    # None yet: it is put before `info`.
    (b'd' + INFO + b'e', b'http://b', b'd8:announce8:http://b' + INFO + b'e'),
    # Another, shorter and longer.
    (b'd8:announce8:http://a' + INFO + b'e', b'u', b'd8:announce1:u' + INFO + b'e'),
    (b'd8:announce1:u' + INFO + b'e', b'http://b.example/announce',
     b'd8:announce25:http://b.example/announce' + INFO + b'e'),
    # The same again, and none again.
    (b'd8:announce1:u' + INFO + b'e', b'u', b'd8:announce1:u' + INFO + b'e'),
    (b'd' + INFO + b'e', None, b'd' + INFO + b'e'),
    # None any more.
    (b'd8:announce1:u' + INFO + b'e', None, b'd' + INFO + b'e'),
    # The list of trackers goes in both cases, and with it `announce`.
    (b'd8:announce1:u13:announce-listll1:u1:vee' + INFO + b'e', b'w', b'd8:announce1:w' + INFO + b'e'),
    (b'd8:announce1:u13:announce-listll1:u1:vee' + INFO + b'e', None, b'd' + INFO + b'e'),
    (b'd13:announce-list0:' + INFO + b'e', b'w', b'd8:announce1:w' + INFO + b'e'),
    # Keys before, between and after, and one that begins so.
    (b'd1:ai1e8:announce1:u9:announce!le13:announce-listle14:announce-list2de' + INFO + b'6:sourcei-1ee', b'w',
     b'd1:ai1e8:announce1:w9:announce!le14:announce-list2de' + INFO + b'6:sourcei-1ee'),
    # Values of another type, and an empty text.
    (b'd8:announcei7e' + INFO + b'e', b'', b'd8:announce0:' + INFO + b'e'),
    (b'd8:announced1:ai0ee' + INFO + b'e', b'u', b'd8:announce1:u' + INFO + b'e'),
]

# Bytes that are no torrent, and why.
REFUSED = [
    (b'', 'V1 Bencode B1 Truncated at 0'),
    (b'le', 'V2 RootShape'),
    (b'd8:announce1:ue', 'V3 InfoShape'),
    (b'd4:infod6:lengthi1e4:name1:a12:piece lengthi1e6:pieces0:ee', 'V15 PiecesLength'),
]


def test_torrents(program, folder):
    for text, tracker, wanted in ROWS:
        (folder / 'torrent').write_bytes(text)
        words = [b'--no-announce'] if tracker is None else [b'--announce', tracker]
        expect(program, ['edit', *words, str(folder / 'torrent')], done(wanted))


def test_refusals(program, folder):
    for text, line in REFUSED:
        (folder / 'torrent').write_bytes(text)
        expect(program, ['edit', '--announce', 'w', str(folder / 'torrent')], refused(line))
