"""What `check` writes of torrents, in each form, worked out by hand; the info hashes are from another program."""
import resource
import signal
import subprocess
from collections import namedtuple

from refuser import Meet, Refuser
from support import Told, done, expect, expect_equal, expect_told, refused

# A torrent, and what is told of it: its lines, the lines of its roots, the paths of its files, and its object.
Row = namedtuple('Row', 'torrent lines roots paths record')

# A name with a quotation mark, a backslash, control bytes and a letter that is not of ASCII, and a tracker whose URL is
# no text; two files, of which one is in a folder, and an `announce-list` of another shape; and a torrent of version 2
# whose files have letters and roots, or none.
ROWS = [
    Row(b'd8:announce11:http://t/\xff"13:announce-listll9:http://t/7:udp://uelee4:infod6:lengthi3e4:name'
        b'8:a"\\\t\x01\xc3\xa9\x7f12:piece lengthi16384e6:pieces20:aaaaaaaaaaaaaaaaaaaae8:url-list9:http://w/e',
        b'kind v1\nname a"\\x5c\\x09\\x01\xc3\xa9\\x7f\npiece length 16384\npieces 1\nfiles 1\n'
        b'3 a"\\x5c\\x09\\x01\xc3\xa9\\x7f\nbtih 9e25a8a959fbe13409747e6c63a5a361f942710a\n',
        b'',
        b'a"\\\t\x01\xc3\xa9\x7f\0',
        b'{"announce":"http://t/\\\\xff\\"","announce_list":[["http://t/","udp://u"],[]],"btih":"9e25a8a959fbe134097'
        b'47e6c63a5a361f942710a","btmh":null,"files":[{"exec":false,"first_piece":0,"hidden":false,"length":3,'
        b'"path":["a\\"\\\\\\t\\u0001\xc3\xa9\x7f"],"pieces":1,"root":null}],"kind":"v1",'
        b'"name":"a\\"\\\\\\t\\u0001\xc3\xa9\x7f","piece_length":16384,"pieces":1,"private":false,"total":3,'
        b'"url_list":["http://w/"]}\n'),
    Row(b'd13:announce-listl1:xe4:infod5:filesld6:lengthi1e4:pathl1:d1:eeed6:lengthi2e4:pathl1:feee4:name1:t'
        b'12:piece lengthi16384e6:pieces20:aaaaaaaaaaaaaaaaaaaae8:url-listl1:v1:wee',
        b'kind v1\nname t\npiece length 16384\npieces 1\nfiles 2\n1 d/e\n2 f\n'
        b'btih 4c0a9e3d706f3af9170280a8966bc57779bef489\n',
        b'',
        b'd/e\0f\0',
        b'{"announce":null,"announce_list":null,"btih":"4c0a9e3d706f3af9170280a8966bc57779bef489","btmh":null,'
        b'"files":[{"exec":false,"first_piece":0,"hidden":false,"length":1,"path":["d","e"],"pieces":1,"root":null},'
        b'{"exec":false,"first_piece":0,"hidden":false,"length":2,"path":["f"],"pieces":1,"root":null}],"kind":"v1",'
        b'"name":"t","piece_length":16384,"pieces":1,"private":false,"total":3,"url_list":["v","w"]}\n'),
    Row(b'd8:announcei5e4:infod9:file treed1:ad0:d6:lengthi0eee1:bd0:d4:attr1:x6:lengthi1e11:pieces root32:.},'
        b'\x03\xa9Pz\xe2e\xec\xf5\xb55h\x85\xa53\x93\xa2\x02\x9d$\x13\x94\x99re\xa1\xa2Z\xef\xc6ee1:cd0:d4:attr1:h'
        b'6:lengthi2e11:pieces root32:\xfb\x8e \xfc.L?$\x8c`\xc3\x9b\xd6R\xf3\xc14r\x98\xbb\x97{'
        b'\x8bMY\x03\xb8PUb\x06\x03eee12:meta versioni2e4:name1:a12:piece lengthi16384e7:privatei1ee12:piece '
        b'layersde8:url-listl0:i1eee',
        b'kind v2\nname a\npiece length 16384\npieces 2\nfiles 3\n0 a\n1 b\n2 c\n'
        b'btmh 1220b2b308f3dd99302926e9f0cb6522407930e1a9fa6ada83189f38cefda66d5618\n',
        b'root 2e7d2c03a9507ae265ecf5b5356885a53393a2029d241394997265a1a25aefc6 1\n'
        b'root fb8e20fc2e4c3f248c60c39bd652f3c1347298bb977b8b4d5903b85055620603 2\n',
        b'a\0b\0c\0',
        b'{"announce":null,"announce_list":null,"btih":null,"btmh":"1220b2b308f3dd99302926e9f0cb6522407930e1a9fa6ada'
        b'83189f38cefda66d5618","files":[{"exec":false,"first_piece":0,"hidden":false,"length":0,"path":["a"],'
        b'"pieces":0,"root":null},{"exec":true,"first_piece":0,"hidden":false,"length":1,"path":["b"],"pieces":1,'
        b'"root":"2e7d2c03a9507ae265ecf5b5356885a53393a2029d241394997265a1a25aefc6"},{"exec":false,"first_piece":1,'
        b'"hidden":true,"length":2,"path":["c"],"pieces":1,"root":"fb8e20fc2e4c3f248c60c39bd652f3c1347298bb977b8b4d5'
        b'903b85055620603"}],"kind":"v2","name":"a","piece_length":16384,"pieces":2,"private":true,"total":3,'
        b'"url_list":null}\n'),
]


def forms(row):
    """The options of each form, and what is written."""
    return [([], row.lines), (['--roots'], row.lines + row.roots), (['--null'], row.paths), (['--json'], row.record)]


def test_torrents(program, folder):
    for row in ROWS:
        (folder / 'torrent').write_bytes(row.torrent)
        for options, text in forms(row):
            expect(program, ['check', *options, str(folder / 'torrent')], done(text))


def test_writes_of_a_byte(program, folder):
    refuser = Refuser(program, folder)
    for row in ROWS:
        (folder / 'torrent').write_bytes(row.torrent)
        for options, text in forms(row):
            words = ['check', *options, str(folder / 'torrent')]
            ended = refuser.run(words, Meet(most=1))
            expect_equal(f'{words} in writes of a byte', (0, text, b''), (ended.status, ended.out, ended.err))


def of_twelve_bytes():
    """The files that a process writes have at most twelve bytes; the write after them is a fault, and no signal."""
    signal.signal(signal.SIGXFSZ, signal.SIG_IGN)
    resource.setrlimit(resource.RLIMIT_FSIZE, (12, 12))


def test_a_fault_after_twelve_bytes(program, folder):
    for row in ROWS:
        (folder / 'torrent').write_bytes(row.torrent)
        for options, text in forms(row):
            if len(text) > 12:
                words = ['check', *options, str(folder / 'torrent')]
                with open(folder / 'out', 'wb') as out:
                    came = subprocess.run([program, *words], stdin=subprocess.DEVNULL, stdout=out,
                                          stderr=subprocess.PIPE, preexec_fn=of_twelve_bytes, check=False)
                told = Told(came.returncode, (folder / 'out').read_bytes(), came.stderr)
                expect_told(words, refused('write fault after 12 bytes', 3)._replace(out=text[:12]), told)
