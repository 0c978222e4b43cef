"""What is read of bytes that others wrote: the first fault of those that spell no tree, after BEP 3, "bencoding"."""
from support import expect, refused

# Each written out by hand, with the fault and its offset.
FAULTS = [
    (b'', 'B1 Truncated at 0'), (b'i12', 'B1 Truncated at 3'), (b'4:abc', 'B1 Truncated at 5'),
    (b'99999999999999999999:a', 'B1 Truncated at 22'), (b'12345678901234567890', 'B1 Truncated at 20'),
    (b'l', 'B1 Truncated at 1'), (b'd1:a', 'B1 Truncated at 4'), (b'd1:ae', 'B2 BadByte at 4'),
    (b'e', 'B2 BadByte at 0'), (b'lx', 'B2 BadByte at 1'), (b'ie', 'B3 BadInteger at 0'), (b'ix', 'B3 BadInteger at 0'),
    (b'i1-2e', 'B3 BadInteger at 0'), (b'i-0e', 'B3 BadInteger at 0'), (b'i03e', 'B3 BadInteger at 0'),
    (b'i-03e', 'B3 BadInteger at 0'), (b'i00e', 'B3 BadInteger at 0'), (b'li-e', 'B3 BadInteger at 1'),
    (b'i9223372036854775808e', 'B4 IntegerRange at 0'), (b'i-9223372036854775809e', 'B4 IntegerRange at 0'),
    (b'01:a', 'B5 BadLength at 0'), (b'03:abc', 'B5 BadLength at 0'), (b'd1:b0:1:ax', 'B7 KeyOrder at 6'),
    (b'3abc', 'B5 BadLength at 0'), (b'di1e1:ae', 'B6 KeyNotBytes at 1'), (b'd1:ai1e1:ai2ee', 'B7 KeyOrder at 7'),
    (b'd1:b0:1:a0:e', 'B7 KeyOrder at 6'), (b'd2:ab0:1:a0:e', 'B7 KeyOrder at 7'), (b'l' * 101, 'B8 TooDeep at 100'),
    (b'0:x', 'B9 Trailing at 2')]


def test_first_faults(program, folder):
    place = folder / 'torrent'
    for text, line in FAULTS:
        place.write_bytes(text)
        expect(program, ['check', str(place)], refused(f'V1 Bencode {line}'), note=f'{text[:40]!r}\n')
