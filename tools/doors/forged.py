"""Numbers that no other request states: members, entries and auxiliaries anywhere, tables for other machines, infos that nobody reached, and lists with all that
is in them. goblin has no counterpart of these requests."""
import struct

from . import exception, fat, links, symver, unwind
from .common import around, hexed, joined, noise, words_at

NAME = 'forged'
DOORS = ['fat_arch_at', 'exceptions_all', 'record_as', 'lookup_as', 'lookup_checked_as', 'next_info', 'scope_read', 'verdauxs_at', 'vernauxs_at', 'verdefs_list',
         'verneeds_list', 'verdauxs_list', 'vernauxs_list']
RULES = []
X64 = 0x8664
PATTERN = 0xA5000000  # what a lent list holds at its start


# The answers of docs/SPEC.md.

def fat_arch_at(data, at):
    fields = [fat.word(data, at + 4 * i) for i in range(5)]
    if None in fields[:4]:
        return 'no 1'
    cputype, subtype, offset, size, align = fields
    if offset + size > len(data):
        return 'no 14'
    return 'no 1' if align is None else joined(cputype, subtype % 2 ** 24, subtype >> 24, offset, size, align, cputype >> 24 & 1)


def exceptions_all(data):
    answer = exception.exceptions(data)
    return f'ok {X64} {answer[3:]}' if answer.startswith('ok') else answer


def record_as(data, machine, *numbers):
    return exception.record(data, *numbers) if machine == X64 else 'no 15'


def lookup_as(data, machine, *numbers):
    return exception.lookup_reads(data, *numbers) if machine == X64 else 'no 15'


def lookup_checked_as(data, machine, *numbers):
    return exception.lookup_checked(data, *numbers) if machine == X64 else 'no 15'


def next_info(data, table, count, alignment, stated, *record):
    if stated >= links.LIMIT:
        return 'no 8'
    found = links.reach(data, (table, count, alignment), record, stated + 1)
    if isinstance(found, str):
        return found
    info = unwind.unwind(data, found[1])
    if info.startswith('no'):
        return info
    version, prolog, register, offset, follows, *more = links.numbers_of(info)
    flags, slots, start = links.numbers_of(links.slots(data, found[1]))
    return joined(*found, version, flags, prolog, slots, register, offset, start, start + 2 * (slots + slots % 2), follows, *(more or [0, 0, 0]))


def scope_read(data, at):
    entry = words_at(data, at, 4)
    return 'no 1' if entry is None else joined(*entry)


def lists(door, big, numbers, data):
    """A list by a record's numbers or from the front of the section; `_list` shows all of the list that was lent."""
    order, kind = '>' if big else '<', symver.KINDS['verdef' if door.startswith('verd') else 'verneed']
    start, size, *more, room = numbers
    form = kind[1] if 'aux' in door else kind[0]
    row = len(form) + 1
    whole = door.endswith('_list')
    room = min(room if whole else room * row, 65535 * row)
    lent = [PATTERN + i for i in range(room)]

    def answer(words, used=()):
        shown = [*used, *lent[len(used):]] if whole else [n for i, n in enumerate(used) if i % row]
        return ' '.join(map(str, [*words, *shown]))

    if more[-1] > 65535:
        return answer(['no', 3])
    if start + size > len(data):
        return answer(['no', 1])
    part = data[start:start + size]
    if 'aux' in door:
        place, aux, count = more
        rows, cut = symver.walk(order, form, kind[5], part[place + aux:], count)
        rows = [(place + aux + at, fields) for at, fields in rows]
    else:
        rows, cut = symver.records(order, 'verdef' if door.startswith('verd') else 'verneed', part, more[0])
    used = [n for at, fields in rows for n in (at, *fields)]
    return answer(['no', 13]) if len(used) > room else answer(['part' if cut else 'ok', len(rows)], used)


def expected(line):
    door, *words, data = line.split(' ')
    data = bytes.fromhex(data[1:])
    if door.startswith('ver'):
        return lists(door, words[0] == 'be', [int(word) for word in words[1:]], data)
    return globals()[door](data, *map(int, words))


# Requests.

MACHINES = [X64] * 6 + [0, 0x14C, 0xAA64, X64 + 1, X64 + 2 ** 16, X64 + 2 ** 32, 2 ** 64 - 1]


def always(rng):
    """Each record cut at every length and at every offset; each machine; each number of links around the limit; each room around that of a list."""
    arch = struct.pack('>5I', 0x01000007, 0x80000003, 4, 20, 14)
    for n in range(len(arch) + 6):
        for at in range(4):
            yield f'fat_arch_at {at} {hexed(bytes(at) + arch[:n] + bytes(max(n - 20, 0)))}'
            yield f'scope_read {at} {hexed((bytes(at) + arch)[:n])}'
    three = struct.pack('<9I', 10, 20, 1, 20, 30, 2, 35, 40, 3)
    for machine in sorted(set(MACHINES)):
        for n in (0, 12, 35, 36):
            for number in (0, 2, 3, 20, 39):
                yield f'record_as {machine} 0 3 {number} {hexed(three[:n])}'
                yield f'lookup_as {machine} 0 3 {number} {hexed(three[:n])}'
                yield f'lookup_checked_as {machine} 0 3 {number} {hexed(three[:n])}'
    data, addresses = links.file_of([links.record_to(1, 0), links.info(links.PUSH, 2), links.info(b'')])
    for stated in (0, 1, 30, 31, 32, 33, 2 ** 32, 2 ** 64 - 1):
        for address in (addresses[0] + 1, addresses[1], addresses[2], addresses[2] + 1, 0):
            yield f'next_info 0 1 512 {stated} 5 6 {address} {hexed(data)}'
    for order in ('le', 'be'):
        e = '<' if order == 'le' else '>'
        definition = struct.pack(e + 'HHHHIII', 1, 1, 1, 2, 7, 20, 36) + struct.pack(e + 'IIII', 5, 8, 6, 0)
        definition += struct.pack(e + 'HHHHIII', 1, 0, 2, 1, 8, 20, 0) + struct.pack(e + 'II', 9, 0)
        need = struct.pack(e + 'HHIII', 1, 2, 3, 16, 48) + struct.pack(e + 'IHHIIIHHII', 1, 2, 3, 4, 16, 5, 6, 7, 8, 0)
        need += struct.pack(e + 'HHIII', 1, 1, 9, 16, 0) + struct.pack(e + 'IHHII', 1, 2, 3, 4, 0)
        for kind, data, aux in (('verdef', definition, 20), ('verneed', need, 16)):
            for room in range(18):
                for size in (len(data), len(data) - 1, aux, 0):
                    yield f'{kind}s_list {order} 0 {size} 2 {room} {hexed(data)}'
                    yield f'{kind[:4]}auxs_list {order} 0 {size} 0 {aux} 2 {room} {hexed(data)}'
            for place, offset in ((0, 0), (0, aux), (aux, 0), (1, aux), (len(data), 0), (0, len(data) - 1), (2 ** 32 - 1, 1), (2 ** 32 - 1, 2 ** 32 - 1)):
                for count in (0, 1, 2, 65535, 65536, 2 ** 32 - 1):
                    yield f'{kind[:4]}auxs_at {order} 0 {len(data)} {place} {offset} {count} 9 {hexed(data)}'


def one(rng):
    door = rng.choice(DOORS)
    if door in ('fat_arch_at', 'scope_read'):
        data = bytearray(noise(rng, rng.choice([0, 15, 16, 19, 20, 21, 40])))
        if len(data) >= 20 and rng.random() < 0.8:
            struct.pack_into('>II', data, 8, around(rng, 0, len(data)) % 2 ** 32, around(rng, 0, len(data)) % 2 ** 32)
        return f'{door} {around(rng, 0, 1, len(data), 2 ** 64 - 1)} {hexed(data)}'
    if door == 'exceptions_all':
        return f'{door} {hexed(exception.image(rng))}'
    if door.endswith('_as'):
        n = rng.choice([0, 1, 2, 3, 8, 33])
        rows, top = exception.table_of(rng, n, rng.random() < 0.8)
        last = around(rng, 0, n) if door == 'record_as' else rng.randrange(top + 5)
        return f'{door} {rng.choice(MACHINES)} 0 {around(rng, n) if rng.random() < 0.1 else n} {last} {hexed(rows)}'
    if door == 'next_info':
        data, addresses = links.file_of(list(links.some_items(rng)))
        address = rng.choice(addresses) + rng.choice([0, 0, 1])
        return f'{door} 0 1 {rng.choice([512] * 9 + [3, 2 ** 32, 2 ** 40])} {around(rng, 0, 0, 0, 30, 32)} {rng.getrandbits(32)} {rng.getrandbits(32)} {address} {hexed(data)}'
    order = rng.choice(['le', 'be'])
    kind = 'verdef' if door.startswith('verd') else 'verneed'
    data, stated = symver.section(rng, '<' if order == 'le' else '>', kind)
    size = len(data) if rng.random() < 0.9 else around(rng, len(data), 0)
    if 'aux' in door:
        numbers = [around(rng, 0, 0, 20, len(data)) % 2 ** 32, around(rng, 0, 16, 20) % 2 ** 32, around(rng, 0, 1, 2, 3, 65535) % 2 ** 32]
    else:
        numbers = [stated if rng.random() < 0.7 else around(rng, stated, 65535)]
    return f'{door} {order} 0 {size} {" ".join(map(str, numbers))} {rng.randrange(24) if door.endswith("_list") else rng.choice([0, 1, 2, 3, 2 ** 64 - 1])} {hexed(data)}'
