"""The smallest request for each entry of docs/DIFFERENCES.md: goblin answers each of them otherwise, or not at all."""
import struct

from . import exception, fat, ground, links, pe, symver, unwind
from .common import hexed

NAME = 'smallest'
DOORS = []
DIFFER = True  # no request of this family may be answered as goblin answers it


def zeros(n):
    return '00' * n


def runtime(*records):
    return b''.join(struct.pack('<III', begin, end, 0) for begin, end in records)


def image(rows, table):
    """An image of one section that maps 0x1000 to offset `table`; the directory there holds the rows."""
    data = bytearray(struct.pack('<30HI', 0x5A4D, *[0] * 29, 64) + b'PE\0\0' + struct.pack('<HHIIIHH', 0x8664, 1, 0, 0, 0, 144, 0) + bytes(144))
    struct.pack_into('<H', data, 88, 0x20B)
    struct.pack_into('<I', data, 88 + 36, 1)
    struct.pack_into('<IIIIIIIII', data, 88 + 108, 4, 0, 0, 0, 0, 0, 0, 0x1000, 12)
    data += struct.pack('<8sIIIIIIHHI', b'.pdata', 12, 0x1000, 12, table, 0, 0, 0, 0, 0)
    return hexed(data + rows)


def optional(directories, size):
    """A PE32+ header of that size with an exception directory, where it has room for one."""
    data = bytearray(size)
    struct.pack_into('<H', data, 0, 0x20B)
    struct.pack_into('<I', data, 36, 512)
    struct.pack_into('<I', data, 108, directories)
    if size >= 144:
        struct.pack_into('<II', data, 136, 0x3000, 24)
    return hexed(data)


def odd_records(n):
    """n records, each leading to the next by an odd address, the last to an info."""
    return hexed(links.file_of([links.record_to(i + 1, i + 1 < n) for i in range(n)] + [links.info(b'')])[0])


ROW = zeros(8) + struct.pack('<IIII', 0, 0x1000, 1, 0).hex() + zeros(16)
DOS = hexed(struct.pack('<30HI', 0x5A4D, *[0] * 29, 64))

# Entry, request, our answer.
ENTRIES = [
    ('D1', 'runtime_put 0 16909060 0 0 x01020304', 'no 13 x01020304'),
    ('D2', 'fat x0000000000000000', 'no 2'),
    ('D3', f'fat xcafebabe00000021{zeros(660)}', 'no 3'),
    ('D4', 'fat xcafebabe0000000100000007000000030000001d0000000000000000', 'no 14'),
    ('D5', f'fat_member 0 xcafebabe00000002{zeros(20)}', 'no 1'),
    ('D6', f'section 0 97 0 x{zeros(40)}', 'no 3'),
    ('D6', f'find_offset 0 97 512 4096 x{ROW}', 'no 3'),
    ('D7', f'section 0 1 0 x2f78{zeros(38)}', 'ok x2f78000000000000 0 0 0 0 0 0 0 0 0'),
    ('D8', f'lookup 0 3 0 {hexed(runtime((0, 0), (0, 1), (0, 0)))}', 'ok 0 1 0'),
    ('D8', f'lookup 0 3 132 {hexed(runtime((14, 128), (108, 149), (123, 166)))}', 'ok 108 149 0'),
    ('D8', f'lookup 0 2 0 {hexed(runtime((0, 1))[:12] + bytes([1, 0, 0, 0]))}', 'no 1'),
    ('D9', 'code 0 0 x01040300046700000000', 'ok 4 4 23 0 0'),
    ('D10', 'scopes x00000010', 'no 4'),
    ('D11', 'verdefs le 0 0 65536 0 x', 'no 3'),
    ('D12', f'dos_put 0 0 0 {DOS}', f'no 2 {DOS}'),
    ('D13', f'optional 0 4 {optional(0, 112)}', 'no 4'),
    ('D14', f'optional 0 144 {optional(17, 144)}', 'ok 523 512 17 12288 24'),
    ('D15', f'exceptions {image(b"", 272)}', 'no 1'),
    ('D15', f'exceptions {image(runtime((2, 1)), 272)}', 'no 9'),
    ('D16', f'info_of 0 1 512 0 0 4097 0 {hexed(links.file_of([links.record_to(0, 1)])[0])}', 'no 8'),
    ('D16', f'info_of 0 1 512 0 0 4097 0 {odd_records(33)}', 'no 8'),
    ('D17', 'codes 0 x01000100000f', 'no 7'),
    ('D18', f'dos 0 {DOS}', 'ok 23117' + ' 0' * 29 + ' 64'),
]
ANSWERS = {line: answer for _, line, answer in ENTRIES}
RULES = [(entry, line.__eq__) for entry, line, _ in ENTRIES]
expected = ANSWERS.get


def goblin(line):
    """goblin's answer, by the family of the request."""
    return next(family for family in (ground, fat, pe, exception, unwind, links, symver) if line.split(' ')[0] in family.DOORS).goblin(line)


def always(rng):
    return list(ANSWERS)
