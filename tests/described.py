"""What `check` tells of torrents that are given by their bytes, for tables of them.

A row is the bytes and what is told: the line of a refusal, or in one line kind, name, piece length, number of pieces
and the files, each with its length and its letters. Behind a bar stand the entries of the v1 side, padding among them
with a `p`, and at the end `private`.
"""
import hashlib
import json

import reference
from foreign import wanted_lines
from random_cases import lay_out
from reference import decode, encode
from support import Failure, done, expect, expect_equal, run


def expect_rows(program, folder, rows):
    """That each row is told, by `check` and `check --json`, and by the reference too."""
    place = folder / 'torrent'
    for text, told in rows:
        wanted = wanted_lines(text)
        place.write_bytes(text)
        expect(program, ['check', str(place)], wanted, note=f'{text!r:.300}\n')
        if wanted.status:
            expect_equal(f'what the reference tells of {text!r:.300}', f'tor: {told}\n'.encode(), wanted.err)
        else:
            expect_described(program, place, text, told)


def expect_described(program, place, text, told):
    came = run(program, ['check', '--json', str(place)])
    if came.status or came.err:
        raise Failure(f'check --json of {text!r:.300}\ncame    {came}')
    record = json.loads(came.out)
    expect_equal(f'what is told of {text!r:.300}', front_of(told), line_of(record))
    expect_equal(f'the object of {text!r:.300}', reference.check_record(reference.judge(text)), record)


def front_of(told):
    """What is told without the entries."""
    is_private = told.endswith(' private')
    return told.removesuffix(' private').partition(' |')[0] + ' private' * is_private


def line_of(record):
    """The line of an object of `check --json`."""
    files = ''.join(f" {'/'.join(file['path'])} {file['length']}{'x' * file['exec']}{'h' * file['hidden']}"
                    for file in record['files'])
    front = '{kind} {name} {piece_length} {pieces}:'.format(**record)
    return front + files + ' private' * record['private']


def entries_of(told):
    """Path, length and whether it is padding of each entry that stands behind the bar."""
    words = told.removesuffix(' private').partition(' |')[2].split()
    return [(path, int(length.rstrip('pxh')), 'p' in length) for path, length in zip(words[::2], words[1::2])]


def expect_laid_out(program, folder, rows):
    """That the bytes of the entries lie as they are told: with their hashes in place of those of the row, each piece of
    such files is there and right, since padding counts as zeros."""
    for number, (text, told) in enumerate(rows):
        entries = entries_of(told)
        if entries:
            files = [(tuple(path.encode().split(b'/')), contents_of(path, length))
                     for path, length, is_padding in entries if not is_padding]
            place = folder / f'files {number}'
            lay_out(place, files)
            (folder / 'torrent').write_bytes(with_hashes(text, entries, dict(files)))
            words = ['recheck', str(folder / 'torrent'), str(place)]
            expect(program, words, done(lines_of_all(decode(text))), note=f'{text!r:.300}\n')


def contents_of(path, length):
    return (path.encode() * length)[:length]


def with_hashes(text, entries, files):
    """The torrent with the hashes of what lies in its files."""
    root = decode(text)
    info = root[b'info']
    joined = b''.join(bytes(length) if is_padding else contents_of(path, length)
                      for path, length, is_padding in entries)
    length = info[b'piece length']
    sums = b''.join(hashlib.sha1(joined[at:at + length]).digest() for at in range(0, len(joined), length))
    expect_equal('the bytes of `pieces`', len(info[b'pieces']), len(sums))
    info[b'pieces'] = sums
    if b'meta version' in info:
        for path, content in files.items():
            file = info[b'file tree']
            for name in path + (b'',):
                file = file[name]
            if content:
                file[b'pieces root'] = reference.root_of(reference.leaves(content))
    return encode(root)


def lines_of_all(root):
    """What a recheck tells when all pieces are there."""
    count = len(root[b'info'][b'pieces']) // 20
    bits = '1' * count + '0' * (-count % 8)
    digits = ''.join(f'{int(bits[at:at + 8], 2):02x}' for at in range(0, len(bits), 8))
    return f'pieces {count} of {count}\nbits {digits}\n'.encode()
