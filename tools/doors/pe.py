"""PE headers, sections and mapping, against the parts of goblin's `pe`."""
import re
import struct

from .common import around, hexed, joined, noise, refusal, taken, written

NAME = 'image'
LIMIT = 96
DOORS = ['dos', 'dos_put', 'coff', 'optional', 'pe', 'section', 'find_offset']


def row(data, at):
    """The ten fields of a section row, or None where it is not whole."""
    if at + 40 > len(data):
        return None
    return (data[at:at + 8],) + struct.unpack_from('<IIIIIIHHI', data, at + 8)


def up(m, n):
    return -(-n // m) * m


def readable(fields, alignment):
    """utils.rs: the bytes of a section that the file has."""
    _, virtual, _, raw, pointer = fields[:5]
    if raw == 0:
        return 0
    size = min(up(alignment, pointer + raw) - pointer // 512 * 512, up(4096, raw))
    return size if virtual == 0 else min(size, up(4096, virtual))


def mapped(data, table, count, alignment, address):
    """The answer of docs/SPEC.md, and the rows that were looked at."""
    if count > LIMIT:
        return 'no 3', []
    if alignment == 0 or alignment & (alignment - 1) or alignment >= 2 ** 32:
        return 'no 5', []
    seen = []
    for i in range(count):
        fields = row(data, table + 40 * i)
        if fields is None:
            return 'no 1', seen
        seen.append(fields)
        if fields[2] <= address < fields[2] + readable(fields, alignment):
            return f'ok {fields[4] + address - fields[2]}', seen
    return 'no 5', seen


def section(data, table, count, index):
    if count > LIMIT:
        return 'no 3', []
    if index >= count:
        return 'no 10', []
    fields = row(data, table + 40 * index)
    if fields is None:
        return 'no 1', []
    return f'ok {hexed(fields[0])} ' + ' '.join(map(str, fields[1:])), [fields]


def field(data, at, form):
    return struct.unpack_from('<' + form, data, at)[0] if at + struct.calcsize('<' + form) <= len(data) else None


def dos(data, at):
    signature = field(data, at, 'H')
    if signature is None:
        return 'no 1', []
    if signature != 0x5A4D:
        return 'no 2', []
    if at + 64 > len(data):
        return 'no 1', []
    return 'ok ' + ' '.join(map(str, struct.unpack_from('<30HI', data, at))), []


def dos_put(data, signature, at, from_):
    found = dos(data, from_)[0]
    if found.startswith('no'):
        return f'{found} {hexed(data)}', []
    if signature != 0x5A4D:
        return f'no 2 {hexed(data)}', []
    if at + 64 > len(data):
        return f'no 13 {hexed(data)}', []
    return f'ok {hexed(data[:at] + data[from_:from_ + 64] + data[at + 64:])}', []


def coff(data, at):
    if at + 4 > len(data):
        return 'no 1', []
    if field(data, at + 2, 'H') > LIMIT:
        return 'no 3', []
    if at + 20 > len(data):
        return 'no 1', []
    return 'ok ' + ' '.join(map(str, struct.unpack_from('<HHIIIHH', data, at))), []


def optional(data, at, size):
    magic = field(data, at, 'H')
    if magic is None:
        return 'no 1', []
    if magic not in (0x10B, 0x20B):
        return 'no 2', []
    if size < 2:
        return 'no 4', []
    count_at = 92 if magic == 0x10B else 108
    numbers = [magic]
    offsets = [36, count_at]
    while offsets:
        offset = offsets.pop(0)
        number = field(data, at + offset, 'I')
        if number is None:
            return 'no 1', []
        if offset + 4 > size:
            return 'no 4', []
        numbers.append(number)
        if offset == count_at and number > 3:
            offsets = [count_at + 28, count_at + 32]
    numbers += [0, 0][len(numbers) - 3:]
    return 'ok ' + ' '.join(map(str, numbers)), []


def pe(data):
    found = dos(data, 0)[0]
    if found.startswith('no'):
        return found, []
    pointer = field(data, 60, 'I')
    signature = field(data, pointer, 'I')
    if signature is None:
        return 'no 1', []
    if signature != 0x4550:
        return 'no 2', []
    found = coff(data, pointer + 4)[0]
    if found.startswith('no'):
        return found, []
    machine, count, _, _, _, size, _ = struct.unpack_from('<HHIIIHH', data, pointer + 4)
    found = optional(data, pointer + 24, size)[0]
    if found.startswith('no'):
        return found, []
    rows = [row(data, pointer + 24 + size + 40 * i) for i in range(count)]
    if None in rows:
        return 'no 1', []
    return f'ok {pointer} {machine} {count} {pointer + 24} {size} {found[3:]} {pointer + 24 + size}', rows


def answered(line):
    door, numbers, data = taken(line)
    return globals()[{'find_offset': 'mapped'}.get(door, door)](data, *numbers)


def expected(line):
    return answered(line)[0]


# Where goblin answers otherwise.

def read_name(name):
    """goblin takes a name that starts with a slash for an offset, in decimal or, after two slashes, in base64; others it refuses."""
    if name[:1] != b'/':
        return True
    form = rb'/[A-Za-z0-9+/]*' if name[1:2] == b'/' else rb'\+?[0-9]+'
    return re.fullmatch(form, name[1:].split(b'\0')[0]) is not None


def goblin_rows(data, table, count):
    """The rows of a table that goblin reads, up to the first that it refuses."""
    rows = []
    for i in range(count):
        fields = row(data, table + 40 * i)
        if fields is None or not read_name(fields[0]):
            break
        rows.append(fields)
    return rows


def goblin_mapped(rows, alignment, address):
    if alignment == 0 or alignment & (alignment - 1):
        return None
    return next((fields[4] + address - fields[2] for fields in rows if fields[2] <= address < fields[2] + readable(fields, alignment)), None)


def goblin_optional(data, at):
    """goblin needs every byte up to the last stated directory, 16 of them at most, and does not look at the stated size."""
    magic = field(data, at, 'H')
    if magic not in (0x10B, 0x20B):
        return None
    end = at + (96 if magic == 0x10B else 112)
    alignment, count = field(data, at + 36, 'I'), field(data, end - 4, 'I')
    if count is None or count > 16 or end + 8 * count > len(data):
        return None
    exceptions = struct.unpack_from('<II', data, end + 24) if count > 3 else (0, 0)
    return [magic, alignment, count, *exceptions]


def goblin_image(data):
    """The headers by goblin: where the COFF header is, its numbers, those of the optional header, and the rows; None where it refuses."""
    if dos(data, 0)[0].startswith('no'):
        return None
    pointer = field(data, 60, 'I')
    if field(data, pointer, 'I') != 0x4550 or pointer + 24 > len(data):
        return None
    coff_ = struct.unpack_from('<HHIIIHH', data, pointer + 4)
    optional_ = goblin_optional(data, pointer + 24)
    rows = goblin_rows(data, pointer + 24 + coff_[5], coff_[1])
    return None if optional_ is None or len(rows) < coff_[1] else (pointer, coff_, optional_, rows)


def goblin(line):
    """goblin's answer where it is another."""
    door, numbers, data = taken(line)
    if door == 'dos':
        return expected(line) if header_alone(line) is False else 'no'
    if door == 'dos_put':
        signature, at, from_ = numbers
        header = struct.pack('<H', signature) + data[from_ + 2:from_ + 64]
        return written(data, at, *(header[i:i + 2] for i in range(0, 60, 2)), header[60:])
    if door == 'coff':
        return 'no' if numbers[0] + 20 > len(data) else joined(*struct.unpack_from('<HHIIIHH', data, numbers[0]))
    if door == 'optional':
        found = goblin_optional(data, numbers[0])
        return 'no' if found is None else joined(*found)
    if door == 'section':
        table, _, index = numbers
        fields = row(data, table + 40 * index)
        return 'no' if fields is None or not read_name(fields[0]) else f'ok {hexed(fields[0])} ' + ' '.join(map(str, fields[1:]))
    if door == 'find_offset':
        table, count, alignment, address = numbers
        offset = goblin_mapped(goblin_rows(data, table, count), alignment, address)
        return 'no' if offset is None else joined(offset)
    image = goblin_image(data)
    if image is None:
        return 'no'
    pointer, coff_, optional_, _ = image
    return joined(pointer, coff_[0], coff_[1], pointer + 24, coff_[5], *optional_, pointer + 24 + coff_[5])


def placed(line):
    """Where the COFF header and the optional header stand, and the stated optional size; None where there is none."""
    door, numbers, data = taken(line)
    if door == 'coff':
        return numbers[0], None, None
    if door == 'optional':
        return None, numbers[0], numbers[1]
    pointer = field(data, 60, 'I') if door == 'pe' else None
    if pointer is None:
        return None, None, None
    return pointer + 4, pointer + 24, field(data, pointer + 20, 'H')


def over_limit(line):
    door, numbers, data = taken(line)
    if door in ('section', 'find_offset'):
        return numbers[1] > 96
    where = placed(line)[0]
    return where is not None and (field(data, where + 2, 'H') or 0) > 96


def slash_name(line):
    """A row that is looked at has a name that starts with a slash."""
    return any(fields[0][:1] == b'/' for fields in answered(line)[1])


def header_alone(line):
    """A whole DOS header whose last field does not lead to the PE signature."""
    door, numbers, data = taken(line)
    part = data[numbers[0]:] if door == 'dos' and expected(line).startswith('ok') else None
    return part is not None and field(part, field(part, 60, 'I'), 'I') != 0x4550


def partial(line):
    door, numbers, data = taken(line)
    return door == 'dos_put' and numbers[1] + 2 <= len(data) < numbers[1] + 64


def other_signature(line):
    door, numbers, _ = taken(line)
    return door == 'dos_put' and numbers[0] != 0x5A4D


def outside_size(line):
    return taken(line)[0] in ('optional', 'pe') and expected(line) == 'no 4'


def all_directories(line):
    """goblin needs every byte of the optional header up to its last stated directory, and at most 16 directories."""
    _, _, data = taken(line)
    _, at, _ = placed(line)
    magic = None if at is None else field(data, at, 'H')
    if magic not in (0x10B, 0x20B):
        return False
    count = field(data, at + (92 if magic == 0x10B else 108), 'I')
    return count is not None and (count > 16 or at + (96 if magic == 0x10B else 112) + 8 * count > len(data))


RULES = [
    ('D1', partial),
    ('D6', over_limit),
    ('D7', slash_name),
    ('D12', other_signature),
    ('D13', outside_size),
    ('D14', all_directories),
    ('D18', header_alone),
]


def some_row(rng):
    name = rng.choice([b'.text\0\0\0', b'/4\0\0\0\0\0\0', b'/x\0\0\0\0\0\0', b'//AAAA\0\0', noise(rng, 8)])
    virtual = rng.choice([0, 1, 0x1000, 0x1001, rng.getrandbits(32)])
    address = rng.choice([0, 0x1000, 0x2000, 0x3000, rng.getrandbits(32)])
    raw = rng.choice([0, 1, 0x200, 0x1000, 0xFFFFFFFF, rng.getrandbits(14), rng.getrandbits(32)])
    pointer = rng.choice([0, 1, 0x200, 0x400, 0x410, 0x5FF, 0xFFFFFFFF, rng.getrandbits(12), rng.getrandbits(32)])
    return struct.pack('<8sIIIIIIHHI', name, virtual, address, raw, pointer, *(rng.getrandbits(k) for k in (32, 32, 16, 16, 32)))


ALIGNMENTS = [0, 1, 2, 3, 0x200, 0x1FF, 0x1000, 0x80000000, 0x80000001, 0xFFFFFFFF]


def always(rng):
    """A table of two rows cut at every length; every alignment; addresses around each border of one section; whole images."""
    yield from whole_images(rng)
    two = struct.pack('<8sIIIIIIHHI', b'.a', 0x1800, 0x1000, 0x600, 0x400, 1, 2, 3, 4, 5)
    two += struct.pack('<8sIIIIIIHHI', b'.b', 0, 0x1000, 0x1001, 0x410, 6, 7, 8, 9, 10)
    for n in range(len(two) + 1):
        for index in range(3):
            yield f'section 0 2 {index} {hexed(two[:n])}'
        yield f'find_offset 0 2 512 {0x1FFF} {hexed(two[:n])}'
    for alignment in ALIGNMENTS:
        for address in [0, 0xFFF, 0x1000, 0x1001, 0x15FF, 0x1600, 0x17FF, 0x1800, 0x1BFF, 0x1C00, 0x1FFF, 0x2000, 0x2001, 0x2FFF, 0x3000]:
            yield f'find_offset 0 2 {alignment} {address} {hexed(two)}'
    for count in [0, 1, 95, 96, 97, 98, 2 ** 64 - 1]:
        yield f'section 0 {count} 0 {hexed(two)}'
        yield f'section 0 {count} {count - 1 if count else 0} {hexed(two)}'
        yield f'find_offset 0 {count} 512 4096 {hexed(two)}'
        yield f'find_offset 0 {count} 512 0 {hexed(two * 50)}'
    for table in [1, 40, 41, 2 ** 32, 2 ** 64 - 40, 2 ** 64 - 1]:
        for index in range(2):
            yield f'section {table} 2 {index} {hexed(two)}'
        yield f'find_offset {table} 2 512 4096 {hexed(two)}'


def image(rng, magic, directories, rows, size=None, pointer=64):
    """A small image: DOS header, PE signature, COFF header, optional header with so many directories, rows."""
    body = bytearray(noise(rng, 112 if magic == 0x20B else 96))
    struct.pack_into('<H', body, 0, magic)
    struct.pack_into('<I', body, 36, rng.choice([0x200, 0x1000, 1, 3]))
    struct.pack_into('<I', body, len(body) - 4, directories)
    body += noise(rng, 8 * min(directories, 20))
    if rng.random() < 0.3 and directories > 3:
        struct.pack_into('<II', body, (112 if magic == 0x20B else 96) + 24, 0, 0)
    size = len(body) if size is None else size
    coff_ = struct.pack('<HHIIIHH', rng.choice([0x8664, 0x14C, 0xAA64]), len(rows), 1, 2, 3, size, 4)
    front = bytearray(noise(rng, 64))
    struct.pack_into('<H', front, 0, 0x5A4D)
    struct.pack_into('<I', front, 60, pointer)
    data = bytes(front) + noise(rng, max(pointer - 64, 0)) + b'PE\0\0' + coff_ + bytes(body[:size]) + bytes(max(size - len(body), 0))
    return data + b''.join(rows)


def whole_images(rng):
    """Images of both forms cut at every length, and with every stated size around the needed ones."""
    for magic in (0x10B, 0x20B):
        for directories in (0, 3, 4, 16, 17):
            rows = [some_row(rng).replace(b'/', b'.') for _ in range(2)]
            data = image(rng, magic, directories, rows)
            for n in range(len(data) + 1):
                if n > 150 or n % 7 == 0 or n < 4:
                    yield f'pe {hexed(data[:n])}'
            for size in list(range(0, 42)) + list(range(90, 150)):
                yield f'pe {hexed(image(rng, magic, directories, rows, size) + bytes(100))}'
                yield f'optional 88 {size} {hexed(data)}'
    for count in (0, 1, 95, 96, 97, 98):
        yield f'pe {hexed(image(rng, 0x20B, 16, [bytes(40)] * count))}'
    for pointer in (64, 65, 128, 200):
        yield f'pe {hexed(image(rng, 0x20B, 16, [bytes(40)], None, pointer))}'
    low = bytearray(image(rng, 0x20B, 16, [bytes(40)]))
    low[4:4 + 300] = low[64:364]
    struct.pack_into('<I', low, 60, 4)
    yield f'pe {hexed(low)}'
    header = hexed(struct.pack('<30HI', 0x5A4D, *range(1, 30), 0x80) + bytes(70))
    for signature in (0x5A4D, 0x4D5A, 0, 0xFFFF):
        for at in list(range(0, 8)) + [69, 70, 71, 72, 134, 2 ** 64 - 1]:
            yield f'dos_put {signature} {at} 0 {header}'
    for n in range(66):
        yield f'dos 0 {header[:1 + 2 * n]}'
        yield f'coff 0 {header[:1 + 2 * n]}'
    yield from led_to_a_signature()


def led_to_a_signature():
    """A DOS header whose last field leads to the PE signature, cut at each byte of that, and another signature."""
    signed = struct.pack('<30HI', 0x5A4D, *range(1, 30), 0x80) + bytes(64) + b'PE\0\0'
    for n in range(5):
        yield f'dos 0 {hexed(signed[:len(signed) - n])}'
        yield f'dos {n} {hexed(bytes(n) + signed)}'
    yield f'dos 0 {hexed(signed[:-4] + b"PE  ")}'


def some_header(rng):
    rows = [some_row(rng) for _ in range(rng.choice([0, 1, 2, 3]))]
    data = bytearray(image(rng, rng.choice([0x10B, 0x20B, 0x20B]), rng.choice([0, 2, 3, 4, 5, 15, 16, 16, 16, 17]), rows))
    for _ in range(rng.choice([0, 0, 1, 2])):
        data[rng.choice([0, 1, 60, 61, 64, 65, 68, 69, 70, 84, 85, 88, 89, 124, rng.randrange(len(data))])] = rng.getrandbits(8)
    if rng.random() < 0.1:
        data = data[:rng.randrange(len(data) + 1)]
    door = rng.choice(['pe', 'pe', 'pe', 'dos', 'coff', 'optional', 'dos_put'])
    if door == 'pe':
        return f'pe {hexed(data)}'
    at = around(rng, {'dos': 0, 'coff': 68, 'optional': 88, 'dos_put': 0}[door], len(data)) if rng.random() < 0.3 else {'dos': 0, 'coff': 68, 'optional': 88, 'dos_put': 5}[door]
    if door == 'optional':
        return f'optional {at} {rng.choice([0, 2, 40, 96, 112, 128, 136, 144, 224, 240, 65535])} {hexed(data)}'
    if door == 'dos_put':
        return f'dos_put {rng.choice([0x5A4D, 0x5A4D, rng.getrandbits(16)])} {at} 0 {hexed(data[:130])}'
    return f'{door} {at} {hexed(data[:140])}'


def one(rng):
    if rng.random() < 0.5:
        return some_header(rng)
    rows = [some_row(rng) for _ in range(rng.choice([0, 1, 1, 2, 3, 5]))]
    front = noise(rng, rng.choice([0, 0, 3]))
    data = front + b''.join(rows)
    if rng.random() < 0.15:
        data = data[:rng.randrange(len(data) + 1)]
    table = len(front) if rng.random() < 0.9 else around(rng, 0, len(data), 2 ** 64 - 1)
    number = len(rows) if rng.random() < 0.8 else around(rng, len(rows), 96)
    if rng.random() < 0.3:
        return f'section {table} {number} {around(rng, 0, len(rows))} {hexed(data)}'
    address = rng.getrandbits(rng.choice([12, 14, 32, 64]))
    if rows and rng.random() < 0.8:
        _, virtual, start, raw, _ = row(rng.choice(rows), 0)[:5]
        address = max(start + rng.choice([0, 1, 0x200, 0x1000, virtual, raw, up(4096, virtual), up(512, raw), up(4096, raw)]) + rng.randint(-2, 2), 0)
    return f'find_offset {table} {number} {rng.choice(ALIGNMENTS + [0x200] * 10)} {address} {hexed(data)}'
