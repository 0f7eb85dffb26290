"""Fat Mach-O, against `MultiArch` and `FatArch`."""
import struct

from .common import around, hexed, noise

NAME = 'mach_fat'
DOORS = ['fat', 'fat_member', 'fat_bytes']
MAGIC = 0xCAFEBABE


def taken(line):
    """The door, the index (0 for `fat`) and the bytes of a request."""
    words = line.split(' ')
    return words[0], int(words[1]) if len(words) == 3 else 0, bytes.fromhex(words[-1][1:])


def word(data, at):
    return struct.unpack_from('>I', data, at)[0] if at + 4 <= len(data) else None


def opened(data):
    """The answer of docs/SPEC.md to opening: the refusal's number, or the members."""
    if word(data, 0) is None:
        return 1
    if word(data, 0) != MAGIC:
        return 2
    count = word(data, 4)
    if count is None:
        return 1
    if count > 32:
        return 3
    members = []
    for i in range(count):
        fields = [word(data, 8 + 20 * i + 4 * j) for j in range(5)]
        if None in fields[:4]:
            return 1
        if fields[2] + fields[3] > len(data):
            return 14
        if fields[4] is None:
            return 1
        members.append(fields)
    return members


def expected(line):
    door, index, data = taken(line)
    got = opened(data)
    if isinstance(got, int):
        return f'no {got}'
    if door == 'fat':
        return f'ok {len(got)}'
    if index >= len(got):
        return 'no 10'
    cputype, subtype, offset, size, align = got[index]
    if door == 'fat_bytes':
        return f'ok {hexed(data[offset:offset + size])}'
    return f'ok {cputype} {subtype % 2 ** 24} {subtype >> 24} {offset} {size} {align} {cputype >> 24 & 1}'


def goblin(line):
    """goblin's answer where it is another: it looks at no magic and has no limit, and reads the asked member alone."""
    door, index, data = taken(line)
    count = word(data, 4)
    if count is None:
        return 'no'
    if door == 'fat':
        return f'ok {count}' if 8 + 20 * count <= len(data) else 'no'
    if index >= count or 8 + 20 * index + 20 > len(data):
        return 'no'
    cputype, subtype, offset, size, align = struct.unpack_from('>5I', data, 8 + 20 * index)
    if door == 'fat_bytes':
        return f'ok {hexed(data[offset:offset + size] if offset + size <= len(data) else b"")}'
    return f'ok {cputype} {subtype % 2 ** 24} {subtype >> 24} {offset} {size} {align} {cputype >> 24 & 1}'


def other_magic(line):
    return word(taken(line)[2], 0) not in (None, MAGIC)


def over_limit(line):
    data = taken(line)[2]
    return word(data, 0) == MAGIC and (word(data, 4) or 0) > 32


def past_the_file(line):
    return opened(taken(line)[2]) == 14


def other_member_cut(line):
    door, _, data = taken(line)
    return door != 'fat' and opened(data) == 1


RULES = [
    ('D2', other_magic),
    ('D3', over_limit),
    ('D4', past_the_file),
    ('D5', other_member_cut),
]


def header(count, magic=MAGIC):
    return struct.pack('>II', magic, count)


def good(rng, count, room):
    """A file with that many members, most of them within it."""
    length = 8 + 20 * count + room
    table = b''
    for _ in range(count):
        size = rng.randint(0, room)
        offset = rng.randint(8 + 20 * count, length - size)
        if rng.random() < 0.3:
            offset = length - size
        cputype = rng.choice([7, 12, 0x01000007, 0x0100000C, 0x02000000, rng.getrandbits(32)])
        table += struct.pack('>IIIII', cputype, rng.choice([3, 0x80000002, rng.getrandbits(32)]), offset, size, rng.choice([0, 12, 14, 31, 32]))
    return header(count) + table + noise(rng, room)


def always(rng):
    """A file of two members cut at every length; every count around the limit; ends around the file's."""
    two = header(2) + struct.pack('>IIIII', 7, 3, 48, 4, 2) + struct.pack('>IIIII', 0x01000007, 0x80000003, 52, 4, 3) + bytes(range(8))
    for n in range(len(two) + 1):
        yield f'fat {hexed(two[:n])}'
        for index in range(4):
            yield f'fat_member {index} {hexed(two[:n])}'
            yield f'fat_bytes {index} {hexed(two[:n])}'
    for count in [0, 1, 2, 31, 32, 33, 34, 45, 50, 52, 2 ** 31, 2 ** 32 - 1]:
        for have in [0, 1, 32, 33, 46]:
            yield f'fat {hexed(header(count) + bytes(20 * have))}'
    for end in range(26, 32):
        for size in [0, 1, 2, 0xFFFFFFFF, 2 ** 32 - end]:
            member = struct.pack('>IIIII', 7, 3, end, size, 0)
            for extra in range(3):
                for line in (f'fat {hexed(header(1) + member + bytes(extra))}', f'fat_bytes 0 {hexed(header(1) + member + bytes(extra))}'):
                    yield line


def one(rng):
    data = bytearray(good(rng, rng.choice([0, 1, 2, 3, 5, 31, 32]), rng.choice([0, 1, 8, 30])))
    for _ in range(rng.choice([0, 0, 1, 1, 2, 4])):
        data[rng.randrange(len(data))] = rng.getrandbits(8)
    if rng.random() < 0.2:
        at = rng.randrange(0, len(data) - 3)
        struct.pack_into('>I', data, at, around(rng, len(data), 0, 2 ** 32 - 3) % 2 ** 32)
    if rng.random() < 0.2:
        data = data[:rng.randrange(len(data) + 1)]
    door = rng.choice(DOORS)
    index = '' if door == 'fat' else f' {around(rng, 0, 2, 31)}'
    return f'{door}{index} {hexed(data)}'
