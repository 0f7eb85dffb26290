"""The unwind infos of a runtime record: odd addresses, chained infos, all codes; and the scope table behind an info."""
import struct

from . import pe, unwind
from .common import around, hexed, joined, noise, taken, words_at

NAME = 'linked_info'
DOORS = ['slots', 'record_at', 'info_of', 'link_of', 'all_codes', 'scopes_at', 'scope_at']
LIMIT = 32


# The answers of docs/SPEC.md.

def slots(data, at):
    info = unwind.unwind(data, at)
    return info if info.startswith('no') else joined(data[at] >> 3, data[at + 2], at + 4)


def record_at(data, table, count, alignment, address):
    offset = pe.mapped(data, table, count, alignment, address)[0]
    if offset.startswith('no'):
        return offset
    record = words_at(data, int(offset[3:]), 3)
    return 'no 1' if record is None else joined(*record)


def numbers_of(answer):
    return [int(word) for word in answer.split(' ')[1:]]


def reach(data, sections, record, links):
    """The refusal, or the record's begin, where its info stands, and the links that led there: odd addresses are followed."""
    while record[2] % 2:
        if links == LIMIT:
            return 'no 8'
        answer = record_at(data, *sections, record[2] - 1)
        if answer.startswith('no'):
            return answer
        record, links = numbers_of(answer), links + 1
    offset = pe.mapped(data, *sections, record[2])[0]
    return offset if offset.startswith('no') else (record[0], int(offset[3:]), links)


def walk(data, sections, record, read):
    """The infos of a record in order: (begin, offset, links, what `read` answers); the last may be a refusal alone."""
    links = 0
    while True:
        found = reach(data, sections, record, links)
        if isinstance(found, str):
            yield found
            return
        answer = read(data, found[1])
        if answer.startswith('no'):
            yield answer
            return
        yield (*found, answer)
        follows = numbers_of(unwind.unwind(data, found[1]))[4:]
        if follows[0] != 1:
            return
        if found[2] == LIMIT:
            yield 'no 8'
            return
        record, links = follows[1:], found[2] + 1


def at_index(data, sections, record, index):
    for i, info in enumerate(walk(data, sections, record, unwind.unwind)):
        if isinstance(info, str) or i == index:
            return info
    return 'no 10'


def info_of(data, *numbers):
    info = at_index(data, numbers[:3], numbers[3:6], numbers[6])
    return info if isinstance(info, str) else info[3]


def link_of(data, *numbers):
    info = at_index(data, numbers[:3], numbers[3:6], numbers[6])
    return info if isinstance(info, str) else joined(*info[:3])


def all_codes(data, *numbers):
    codes = 0
    for info in walk(data, numbers[:3], numbers[3:6], unwind.codes):
        if isinstance(info, str):
            return info
        codes += numbers_of(info[3])[0]
    return joined(info[2], codes)


def handler_data(data, at):
    """The refusal, or the data of the info's exception handler."""
    info = unwind.unwind(data, at)
    if info.startswith('no'):
        return info
    follows = numbers_of(info)[4:]
    return data[follows[2]:] if follows[0] == 2 else 'no 10'


def scopes_at(data, at):
    part = handler_data(data, at)
    return part if isinstance(part, str) else unwind.scopes(part)


def scope_at(data, at, index):
    part = handler_data(data, at)
    return part if isinstance(part, str) else unwind.scope(part, index)


def expected(line):
    door, numbers, data = taken(line)
    return globals()[door](data, *numbers)


# Where goblin answers otherwise.

def goblin(line):
    """goblin's answer where it is another: it maps by the rows up to the first that it refuses, and follows links without a limit."""
    door, numbers, data = taken(line)
    if door in ('scopes_at', 'scope_at'):
        return unwind.scopes_wrapped(handler_data(data, numbers[0]), *numbers[1:])
    rows = pe.goblin_rows(data, numbers[0], numbers[1])

    def at(address, read):
        offset = pe.goblin_mapped(rows, numbers[2] % 2 ** 32, address)
        return None if offset is None else read(data, offset)

    def record(address):
        return at(address, lambda s, o: words_at(s, o, 3))

    if door == 'record_at':
        found = record(numbers[3])
        return 'no' if found is None else joined(*found)
    function, links, codes = numbers[3:6], 0, 0
    for i in range(100):
        while function is not None and function[2] % 2 and links < 1000:
            function, links = record(function[2] - 1), links + 1
        info = function and at(function[2], lambda s, o: (unwind.unwind(s, o), unwind.codes(s, o)))
        if not info or info[0].startswith('no'):
            return 'no'
        if door == 'info_of' and i == numbers[6]:
            return info[0]
        if door == 'all_codes' and info[1].startswith('no'):
            return 'no'
        codes += numbers_of(info[1])[0] if door == 'all_codes' else 0
        follows = numbers_of(info[0])[4:]
        if follows[0] != 1:
            return joined(links, codes) if door == 'all_codes' else 'no'
        function, links = follows[1:], links + 1
    return 'hang'


def many_sections(line):
    door, numbers, _ = taken(line)
    return door in ('record_at', 'info_of', 'all_codes') and numbers[1] > pe.LIMIT


def slash_name(line):
    """A row's name starts with a slash."""
    door, numbers, data = taken(line)
    rows = range(numbers[0], min(numbers[0] + 40 * numbers[1], len(data)), 40) if door in ('record_at', 'info_of', 'all_codes') else []
    return any(data[at:at + 1] == b'/' for at in rows)


def scopes_wrap(line):
    door, numbers, data = taken(line)
    if door not in ('scopes_at', 'scope_at'):
        return False
    part = handler_data(data, numbers[0])
    return not isinstance(part, str) and unwind.scopes_wrap(f'scopes {hexed(part)}')


def many_links(line):
    """goblin follows odd addresses without a limit; the oracle has it follow chained infos so."""
    door, _, _ = taken(line)
    return door in ('info_of', 'all_codes') and expected(line) == 'no 8'


RULES = [
    ('D6', many_sections),
    ('D7', slash_name),
    ('D10', scopes_wrap),
    ('D16', many_links),
]


# Requests.

ADDRESS = 0x1000


def section(size, raw):
    """A row for bytes of the file that start at `raw`."""
    return struct.pack('<8sIIIIIIHHI', b'.pdata', size, ADDRESS, size, raw, 0, 0, 0, 0, 0)


def file_of(items):
    """One section row, then the items, each 4-aligned, and their addresses. An item is made from the addresses of all."""
    addresses, at = [], ADDRESS
    for size, _ in items:
        addresses.append(at)
        at += -(-size // 4) * 4
    body = b''.join(make(addresses).ljust(-(-size // 4) * 4, b'\0') for size, make in items)
    return section(len(body), 40) + body, addresses


def record_to(to, odd):
    """A runtime record that names the item `to`."""
    return 12, lambda addresses: struct.pack('<III', 16, 32, addresses[to] + odd)


def info(codes, to=None, odd=0, version=1):
    """An info with these slots, chained to the item `to` where there is one."""
    head = bytes([version + (32 if to is not None else 0), 4, len(codes) // 2, 0]) + codes + bytes(2 * (len(codes) // 2 % 2))
    if to is None:
        return len(head), lambda _: head
    return len(head) + 12, lambda addresses: head + struct.pack('<III', 48, 64, addresses[to] + odd)


def asked(data, unwind_address, index=0, doors=('info_of', 'link_of', 'all_codes')):
    for door in doors:
        number = '' if door == 'all_codes' else f' {index}'
        yield f'{door} 0 1 512 1 2 {unwind_address}{number} {hexed(data)}'


PUSH = bytes([4, 0x30])


def always(rng):
    """0 to 34 links of each kind; a record and an info that refer to themselves; a file of each kind of link cut at every length; scope
    tables behind each kind of info, cut at every length."""
    for n in list(range(4)) + list(range(30, 35)):
        odd = [record_to(i + 1, i + 1 < n) for i in range(n)] + [info(PUSH)]
        chained = [info(PUSH, i + 1) for i in range(n)] + [info(PUSH)]
        both = [item for i in range(n) for item in (info(PUSH, 2 * i + 1, 1), record_to(2 * i + 2, 0))] + [info(PUSH)]
        for items, first in ((odd, n > 0), (chained, 0), (both, 0)):
            data, addresses = file_of(items)
            for index in (0, 1, 15, 16, 17, n, n + 1):
                yield from asked(data, addresses[0] + first, index)
    data, addresses = file_of([record_to(0, 1), info(PUSH, 1)])
    yield from asked(data, addresses[0] + 1)
    for index in (0, 1, 31, 32, 33):
        yield from asked(data, addresses[1], index)
    two, addresses = file_of([record_to(1, 0), info(b'\4\x30\6\x42', 2), info(b'\4\x30')])
    for n in range(len(two) + 1):
        yield f'record_at 0 1 512 {ADDRESS} {hexed(two[:n])}'
        for index in range(3):
            yield from asked(two[:n], addresses[0] + 1, index)
    for address in list(range(ADDRESS - 2, ADDRESS + 4)) + [addresses[2] + 2, 0, 2 ** 32 - 1]:
        yield from asked(two, address)
        yield f'record_at 0 1 512 {address} {hexed(two)}'
    for count in (0, 1, 2, 96, 97, 2 ** 64 - 1):
        for alignment in (0, 1, 3, 512):
            yield f'info_of 0 {count} {alignment} 1 2 {addresses[1]} 0 {hexed(two)}'
            yield f'all_codes 0 {count} {alignment} 1 2 {addresses[1]} {hexed(two)}'
            yield f'record_at 0 {count} {alignment} {addresses[0]} {hexed(two)}'
    for flags in range(32):
        for n in (0, 1, 2):
            data = bytes([1 + 8 * flags, 4, n, 0]) + bytes([4, 0x42] * n) + bytes(2 * (n % 2)) + struct.pack('<6I', 7, 1, 10, 20, 30, 40)
            for cut in (range(len(data) + 1) if flags < 4 else [len(data)]):
                yield f'slots 0 {hexed(data[:cut])}'
                yield f'scopes_at 0 {hexed(data[:cut])}'
                for index in (0, 1):
                    yield f'scope_at 0 {index} {hexed(data[:cut])}'
    for count in (0x0FFFFFFF, 0x10000000, 0x10000001, 0xFFFFFFFF):
        yield f'scopes_at 0 {hexed(struct.pack("<BBBBII", 9, 0, 0, 0, 7, count) + bytes(16))}'


def slots_of(rng):
    """The slots of some operations, mostly whole ones."""
    slots = b''
    for _ in range(rng.choice([0, 1, 1, 2, 3, 6])):
        op = rng.choice([0, 2, 3, 0x32, 0x50, 0x1A, 1, 0x11, 4, 5, 6, 7, 8, 9])
        more = {1: 2, 0x11: 4, 4: 2, 5: 4, 6: 2, 7: 4, 8: 2, 9: 4}.get(op, 0)
        slots += bytes([rng.randrange(8), op]) + noise(rng, more if rng.random() < 0.95 else rng.choice([0, 2]))
    return slots


def some_items(rng):
    """Records and infos that mostly lead on to later ones, so that nearly every walk ends."""
    n = rng.choice([1, 2, 3, 5, 8, 40])
    records = [rng.random() < 0.4 for _ in range(n - 1)] + [False]
    for i in range(n):
        to = rng.randrange(i + 1, n) if i + 1 < n and rng.random() < 0.3 else min(i + 1, n - 1)
        if rng.random() < 0.003:
            to = rng.randrange(n)
        odd = records[to] if rng.random() < 0.97 else not records[to]
        if records[i]:
            yield record_to(to, odd)
        else:
            yield info(slots_of(rng), None if i + 1 == n or rng.random() < 0.2 else to, odd, rng.choice([1] * 20 + [2] * 5 + [3]))


def one(rng):
    items = list(some_items(rng))
    data, addresses = file_of(items)
    if rng.random() < 0.15:
        data = data[:rng.randrange(len(data) + 1)]
    door = rng.choice(['info_of', 'all_codes', 'all_codes', 'link_of', 'record_at', 'scopes_at', 'scope_at'])
    if door.startswith('scope'):
        n = rng.randrange(3)
        part = struct.pack('<I', max(n + rng.choice([0, 0, 0, 1, -1]), 0)) + noise(rng, 16 * n)
        data = bytes([rng.choice([9, 9, 9, 0x0A, 0x11, 0x21, 1]), 4, 1, 0, 4, 0x30, 0, 0]) + noise(rng, 4) + part
        return f'{door} {rng.choice([0] * 9 + [1])}{f" {around(rng, 0, n)}" if door == "scope_at" else ""} {hexed(data)}'
    address = rng.choice(addresses) + rng.choice([0, 0, 1]) if rng.random() < 0.95 else rng.getrandbits(32)
    sections = f'{0 if rng.random() < 0.97 else around(rng, 0, len(data))} {rng.choice([1] * 20 + [0, 2, 97])} {rng.choice([512] * 20 + [1, 4096, 3])}'
    if door == 'record_at':
        return f'record_at {sections} {address} {hexed(data)}'
    index = '' if door == 'all_codes' else f' {rng.choice([0, 0, 1, 2, 3, 31, 33])}'
    return f'{door} {sections} {rng.getrandbits(32)} {rng.getrandbits(32)} {address}{index} {hexed(data)}'
