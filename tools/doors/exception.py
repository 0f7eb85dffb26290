"""Runtime tables and exception data: opening, records, lookups."""
import struct

from . import pe
from .common import around, hexed, joined, noise, taken, words_at

NAME = 'exception'
DOORS = ['exceptions', 'record', 'lookup', 'lookup_reads', 'lookup_checked', 'table_check']


# The answers of docs/SPEC.md.

def halving(data, table, count, address):
    """The refusal, or the record with its index and the number of records read."""
    low, high, reads = 0, count, 0
    while low < high:
        middle = (low + high) // 2
        record_ = words_at(data, table + 12 * middle, 3)
        if record_ is None:
            return 'no 1'
        reads += 1
        if record_[0] <= address < record_[1]:
            return [*record_, middle, reads]
        if address < record_[0]:
            high = middle
        else:
            low = middle + 1
    return 'no 10'


def lookup(data, table, count, address):
    found = halving(data, table, count, address)
    return found if isinstance(found, str) else joined(*found[:3])


def lookup_reads(data, table, count, address):
    found = halving(data, table, count, address)
    return found if isinstance(found, str) else joined(*found)


def table_check(data, table, count):
    if count and table + 12 * count > len(data):
        return 'no 1'
    ends = 0
    for i in range(count):
        begin, end, _ = words_at(data, table + 12 * i, 3)
        if not ends <= begin < end:
            return 'no 9'
        ends = end
    return 'ok'


def lookup_checked(data, table, count, address):
    checked = table_check(data, table, count)
    if checked != 'ok':
        return checked
    found = halving(data, table, count, address)
    return found if isinstance(found, str) else joined(*found[:4])


def record(data, table, count, index):
    if index >= count:
        return 'no 10'
    found = words_at(data, table + 12 * index, 3)
    return 'no 1' if found is None else joined(*found)


def exceptions(data):
    """Opening: all header and section checks, then 15, 10, 4, 5, 1, 9."""
    header = pe.pe(data)[0]
    if header.startswith('no'):
        return header
    _, machine, sections, _, _, _, alignment, directories, address, size, rows = map(int, header.split(' ')[1:])
    if machine != 0x8664:
        return 'no 15'
    if directories <= 3 or not (address or size):
        return 'no 10'
    if size % 12:
        return 'no 4'
    offset = pe.mapped(data, rows, sections, alignment, address)[0]
    if offset.startswith('no'):
        return offset
    table = int(offset[3:])
    if table % 4:
        return 'no 5'
    checked = table_check(data, table, size // 12)
    return checked if checked != 'ok' else joined(table, size // 12, rows, sections, alignment)


def expected(line):
    door, numbers, data = taken(line)
    return globals()[door](data, *numbers)


# Where goblin answers otherwise.

def goblin_lookup(data, table, count, address):
    """goblin halves by begin alone, keeps the record that it looked at, and looks at one end, at the last."""
    def begin(i):
        found = words_at(data, table + 12 * i, 1)
        if found is None:
            raise IndexError
        return found[0]

    if count == 0:
        return 'absent'
    try:
        base, size = 0, count
        while size > 1:
            half = size // 2
            base = base if begin(base + half) > address else base + half
            size -= half
        if begin(base) > address:
            if base == 0:
                return 'absent'
            base -= 1
        function = words_at(data, table + 12 * base, 3)
    except IndexError:
        return 'no'
    if function is None:
        return 'no'
    return joined(*function) if function[1] > address else 'absent'


def goblin(line):
    """goblin's answer where it is another."""
    door, numbers, data = taken(line)
    if door == 'lookup':
        return goblin_lookup(data, *numbers)
    image = pe.goblin_image(data)
    if image is None:
        return 'no'
    pointer, (machine, count, _, _, _, size_, _), (_, alignment, directories, address, size), rows = image
    table = pe.goblin_mapped(rows, alignment, address)
    if machine != 0x8664 or directories <= 3 or not (address or size) or size % 12 or table is None or table % 4:
        return 'no'
    return joined(table, size // 12, pointer + 24 + size_, count, alignment)


def other_table(line):
    door, numbers, data = taken(line)
    return door == 'lookup' and table_check(data, *numbers[:2]) != 'ok'


def not_opened(line):
    """goblin looks neither at the order of the table nor at whether it lies in the file."""
    door, _, data = taken(line)
    return door == 'exceptions' and expected(line) in ('no 1', 'no 9') and pe.pe(data)[0].startswith('ok')


def other_header(line):
    """What explains the header explains opening."""
    door, _, data = taken(line)
    return door == 'exceptions' and any(holds(f'pe {hexed(data)}') for _, holds in pe.RULES)


RULES = [
    ('D8', other_table),
    ('D15', not_opened),
    ('D6, D7, D13 or D14', other_header),
]


# Requests.

def table_of(rng, n, sorted_):
    at, rows = rng.randrange(20), []
    for _ in range(n):
        begin = at + rng.choice([0, 0, 1, 7]) if sorted_ else rng.randrange(200)
        end = begin + rng.choice([1, 1, 5, 40]) if sorted_ else rng.randrange(200)
        rows.append(struct.pack('<III', begin, end, rng.getrandbits(32)))
        at = end
    return b''.join(rows), at


def image(rng):
    """An image with one section that holds a runtime table."""
    n = rng.choice([0, 1, 2, 3, 8])
    rows, _ = table_of(rng, n, rng.random() < 0.85)
    raw = rng.choice([0x200, 0x210, 0x204, 0x202])
    section = struct.pack('<8sIIIIIIHHI', b'.pdata', 0x1000, 0x3000, rng.choice([0x200, len(rows), 0x400]), raw, 0, 0, 0, 0, 0)
    data = bytearray(pe.image(rng, rng.choice([0x10B, 0x20B, 0x20B]), rng.choice([3, 4, 16, 16, 16]), [section]))
    struct.pack_into('<H', data, 68, rng.choice([0x8664] * 9 + [0x14C]))
    body = 88
    start = body + (96 if data[88:90] == b'\x0b\x01' else 112)
    struct.pack_into('<I', data, body + 36, rng.choice([0x200, 0x200, 0x200, 3]))
    if struct.unpack_from('<I', data, start - 4)[0] > 3:
        size = 12 * n + rng.choice([0, 0, 0, 0, 12, 4])
        struct.pack_into('<II', data, start + 24, rng.choice([0x3000, 0x3000, 0x3000, 0x3004, 0x3002, 0x5000, 0]), rng.choice([size, size, size, 0]))
    data += bytes(max(raw - len(data), 0))
    data[raw:] = rows
    if rng.random() < 0.1:
        data = data[:rng.randrange(len(data) + 1)]
    return data


def always(rng):
    """A table of three records at every address around its borders, cut at every length, and every count around its own."""
    three = struct.pack('<9I', 10, 20, 1, 20, 30, 2, 35, 40, 3)
    for n in range(len(three) + 1):
        for address in (9, 10, 19, 20, 29, 30, 34, 35, 39, 40):
            for door in ('lookup', 'lookup_reads', 'lookup_checked'):
                yield f'{door} 0 3 {address} {hexed(three[:n])}'
        yield f'table_check 0 3 {hexed(three[:n])}'
        for index in range(4):
            yield f'record 0 3 {index} {hexed(three[:n])}'
    for count in (0, 1, 2, 4, 2 ** 28, 2 ** 63, 2 ** 64 - 1):
        for table in (0, 1, 12, 36, 37, 2 ** 64 - 1):
            for door in ('lookup', 'lookup_reads', 'lookup_checked'):
                yield f'{door} {table} {count} 20 {hexed(three)}'
            yield f'table_check {table} {count} {hexed(three)}'
            yield f'record {table} {count} 1 {hexed(three)}'


def one(rng):
    door = rng.choice(['lookup'] * 4 + ['lookup_reads', 'lookup_checked', 'table_check', 'record'] + ['exceptions'] * 4)
    if door == 'exceptions':
        return f'exceptions {hexed(image(rng))}'
    n = rng.choice([0, 1, 1, 2, 3, 4, 5, 7, 8, 16, 33])
    rows, top = table_of(rng, n, rng.random() < 0.7)
    front = noise(rng, rng.choice([0, 0, 4, 5]))
    data = front + rows
    if rng.random() < 0.1:
        data = data[:rng.randrange(len(data) + 1)]
    table = len(front) if rng.random() < 0.95 else around(rng, 0, len(data), 2 ** 64 - 1)
    number = n if rng.random() < 0.9 else around(rng, n, 357913941)
    last = rng.randrange(top + 5) if rng.random() < 0.9 else rng.getrandbits(32)
    if door == 'record':
        last = around(rng, 0, n)
    return f'{door} {table} {number}{"" if door == "table_check" else f" {last}"} {hexed(data)}'
