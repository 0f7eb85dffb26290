"""Unwind info, operations and scope tables, against goblin's `UnwindInfo`."""
import struct

from .common import around, hexed, joined, noise, taken, words_at, written

NAME = 'unwind_info'
DOORS = ['unwind', 'codes', 'code', 'scopes', 'scope', 'scope_put', 'register']


# The answers of docs/SPEC.md.

def head(data, at):
    """The refusal's number, or (version, flags, prolog, slots, register, offset, where what follows the codes stands)."""
    if at >= len(data):
        return 1
    version, flags = data[at] & 7, data[at] >> 3
    if version not in (1, 2):
        return 6
    if at + 4 > len(data):
        return 1
    prolog, count, frame = data[at + 1:at + 4]
    end = at + 4 + 2 * count
    if end > len(data):
        return 1
    return version, flags, prolog, data[at + 4:end], frame & 15, (frame >> 4) * 16, end + 2 * (count % 2)


def tail(data, flags, at):
    """What follows the codes, as its numbers, or the refusal's number."""
    if flags & 4:
        chained = words_at(data, at, 3)
        return 1 if chained is None else [1, *chained]
    if flags & 3:
        handler = words_at(data, at, 1)
        return 1 if handler is None else [2 if flags & 1 else 3, handler[0], at + 4, len(data) - at - 4]
    return [0]


def unwind(data, at):
    got = head(data, at)
    if isinstance(got, int):
        return f'no {got}'
    version, flags, prolog, _, register, offset, end = got
    follows = tail(data, flags, end)
    return f'no {follows}' if isinstance(follows, int) else joined(version, prolog, register, offset, *follows)


def decoded(version, slots, register):
    """The operations of the slots, up to the first that is refused: (code offset, kind, data..); then the refusal, or 0."""
    at, operations = 0, []
    base = 1 if register else 0
    while at < len(slots):
        where, op, more = slots[at], slots[at + 1] & 15, slots[at + 1] >> 4
        half = struct.unpack_from('<H', slots, at + 2)[0] if at + 4 <= len(slots) else None
        full = struct.unpack_from('<I', slots, at + 2)[0] if at + 6 <= len(slots) else None
        size, number = 1, 0
        if op == 1 and more > 1 or op == 10 and more > 1 or op > 10:
            return operations, 7
        if op in (4, 8) or op == 1 and more == 0 or op == 6 and version == 1:
            size, number = 2, half
        if op in (5, 7, 9) or op == 1 and more == 1:
            size, number = 3, full
        if number is None:
            return operations, 1
        kinds = {
            0: lambda: (0, more),
            1: lambda: (1, number * 8 if more == 0 else number),
            2: lambda: (1, more * 8 + 8),
            3: lambda: (2,),
            4: lambda: (3, more, base, number * 8),
            5: lambda: (3, more, base, number),
            6: lambda: (4, 17 + more, base, number * 16) if version == 1 else (5, where, more),
            7: lambda: (4, 17 + more, base, number) if version == 1 else (8,),
            8: lambda: (6, 17 + more, base, number * 16),
            9: lambda: (6, 17 + more, base, number),
            10: lambda: (7, more),
        }
        operations.append((where, *kinds[op]()))
        at += 2 * size
    return operations, 0


def coded(data, at, index):
    """Header, then the operations in array order up to the one at the index (all for None), then what follows the codes."""
    got = head(data, at)
    if isinstance(got, int):
        return f'no {got}'
    version, flags, _, slots, register, _, end = got
    operations, why = decoded(version, slots, register)
    here = index is not None and index < len(operations)
    if why and not here:
        return f'no {why}'
    follows = tail(data, flags, end)
    if isinstance(follows, int):
        return f'no {follows}'
    if index is None:
        return joined(len(operations))
    return joined(*operations[index]) if here else 'no 10'


def codes(data, at):
    return coded(data, at, None)


def code(data, at, index):
    return coded(data, at, index)


def scopes(data):
    count = words_at(data, 0, 1)
    if count is None:
        return 'no 1'
    return joined(count[0]) if 4 + 16 * count[0] <= len(data) else 'no 4'


def scope(data, index):
    count = scopes(data)
    if count.startswith('no'):
        return count
    return joined(*words_at(data, 4 + 16 * index, 4)) if index < int(count[3:]) else 'no 10'


def scope_put(data, at, *numbers):
    if at + 16 > len(data):
        return f'no 13 {hexed(data)}'
    return f'ok {hexed(data[:at] + struct.pack("<4I", *numbers) + data[at + 16:])}'


NAMES = 'rax rcx rdx rbx rsp rbp rsi rdi r8 r9 r10 r11 r12 r13 r14 r15 rip'.split() + [f'xmm{n}' for n in range(16)]


def register(number):
    name = f'${NAMES[number]}' if number < len(NAMES) else ''
    return f'ok {hexed(name.ljust(6).encode())}'


def expected(line):
    if line.startswith('register '):
        return register(int(line.split(' ')[1]))
    door, numbers, data = taken(line)
    return globals()[door](data, *numbers)


# Where goblin answers otherwise.

def goblin(line):
    """goblin's answer where it is another."""
    door, numbers, data = taken(line)
    if door == 'scope_put':
        return written(data, numbers[0], *(struct.pack('<I', n) for n in numbers[1:]))
    if door == 'code':
        where, kind, *more = expected(line).split(' ')[1:]
        return ' '.join(['ok', where, '6', *more]) if kind == '4' else 'no'
    return scopes_wrapped(data, *numbers)


def scopes_wrapped(data, index=None):
    """Of a scope table, by goblin: the entries take 16 times the count, in 32 bits."""
    size = words_at(data, 0, 1)[0] * 16 % 2 ** 32
    if 4 + size > len(data) or index is not None and index >= size // 16:
        return 'no'
    return joined(size // 16) if index is None else joined(*words_at(data, 4 + 16 * index, 4))


def first_version_seven(line):
    """The operation that is asked for is op 7 of version 1."""
    door, numbers, data = taken(line)
    got = head(data, numbers[0]) if door == 'code' else 0
    if isinstance(got, int) or got[0] != 1:
        return False
    slots, at = got[3], 0
    for _ in range(min(numbers[1], len(slots))):
        if at + 2 > len(slots):
            return False
        op, more = slots[at + 1] & 15, slots[at + 1] >> 4
        at += 2 * (2 if op in (4, 6, 8) or (op, more) == (1, 0) else 3 if op in (5, 7, 9) or (op, more) == (1, 1) else 1)
    return at + 2 <= len(slots) and slots[at + 1] & 15 == 7


def scopes_wrap(line):
    door, _, data = taken(line)
    count = words_at(data, 0, 1)
    return door in ('scopes', 'scope') and count is not None and count[0] >= 0x10000000


def partial(line):
    door, numbers, data = taken(line)
    return door == 'scope_put' and numbers[0] + 4 <= len(data) < numbers[0] + 16


RULES = [
    ('D1', partial),
    ('D9', first_version_seven),
    ('D10', scopes_wrap),
]


# Requests.

def always(rng):
    """Every register; every first byte; every kind and data of a first slot, in both versions; infos cut at every length."""
    for number in range(256):
        yield f'register {number}'
    for first in range(256):
        for count in (0, 1, 2):
            yield f'unwind 0 {hexed(bytes([first, 4, count, 0x35, 4, 0x42, 0, 0]) + bytes(range(1, 21)))}'
    for version in (1, 2):
        for op in range(256):
            for frame in (0, 0x25):
                yield f'codes 0 {hexed(bytes([version, 4, 1, frame, 4, op, 0, 0]))}'
                yield f'code 0 0 {hexed(bytes([version, 4, 1, frame, 4, op, 0, 0]))}'
                for second in ((6, 0), (255, 255)):
                    data = hexed(bytes([version, 4, 2, frame, 4, op, *second]))
                    yield f'codes 0 {data}'
                    yield f'code 0 0 {data}'
                    yield f'code 0 1 {data}'
                yield f'code 0 0 {hexed(bytes([version, 4, 3, frame, 4, op, 1, 2, 3, 4, 0, 0]))}'
    for flags in (0, 1, 2, 3, 4, 5, 8, 31):
        for count in (0, 1, 2, 3):
            whole = bytes([1 + 8 * flags, 4, count, 0]) + bytes([4, 0x42] * count) + bytes(2 * (count % 2)) + bytes(range(1, 25))
            for n in range(len(whole) + 1):
                yield f'unwind 0 {hexed(whole[:n])}'
    for n in range(40):
        for count in (0, 1, 2, 3):
            data = hexed((struct.pack('<I', count) + bytes(range(40)))[:n])
            yield f'scopes {data}'
            yield f'scope 0 {data}'
            yield f'scope 1 {data}'
    for count in (0x0FFFFFFF, 0x10000000, 0x10000001, 0x20000001, 0xFFFFFFFF):
        for n in (0, 16, 32):
            yield f'scopes {hexed(struct.pack("<I", count) + bytes(n))}'
            yield f'scope 0 {hexed(struct.pack("<I", count) + bytes(n))}'
    for n in range(20):
        for at in range(5):
            yield f'scope_put {at} 1 2 3 4294967295 {hexed(bytes(n))}'


def every():
    """Every value of the slot of a list of one; of the first slot of a list of two; and, behind a first slot of each operation, of the second."""
    for version in (1, 2):
        for value in range(65536):
            slot = struct.pack('<H', value)
            yield f'code 0 0 {hexed(bytes([version, 4, 1, 0x25]) + slot)}'
            firsts = [slot + bytes([6, 0])] + [bytes([4, op]) + slot for op in [*range(16), 0x11, 0x1A]]
            for index in (0, 1):
                yield from (f'code 0 {index} {hexed(bytes([version, 4, 2, 0]) + slots)}' for slots in firsts)


def one(rng):
    door = rng.choice(['unwind', 'codes', 'code', 'code', 'scope'])
    if door == 'scope':
        n = rng.randrange(4)
        data = struct.pack('<I', max(n + rng.choice([0, 0, 0, 1, -1]), 0)) + noise(rng, 16 * n)
        return f'scope {around(rng, 0, n)} {hexed(data)}'
    else:
        n = rng.choice([0, 1, 2, 3, 4, 5, 8, 16])
        slots = bytes(x for _ in range(n) for x in (rng.randrange(8), rng.choice([0, 1, 0x11, 2, 3, 4, 5, 6, 7, 8, 9, 10, 0x1A]) | (rng.getrandbits(4) << 4 if rng.random() < 0.3 else 0)))
        first = rng.choice([1, 1, 1, 2, 2, 9, 0x11, 0x19, 0x21, 0x0A, rng.getrandbits(8)])
        data = bytes([first, rng.getrandbits(8), n, rng.choice([0, 0, 5, 0x25, rng.getrandbits(8)])]) + slots + bytes(2 * (n % 2)) + noise(rng, rng.choice([0, 4, 12, 20]))
        if rng.random() < 0.1:
            data = data[:rng.randrange(len(data) + 1)]
        front = noise(rng, rng.choice([0, 0, 0, 3]))
        at = len(front) if rng.random() < 0.97 else around(rng, 0, len(data), 2 ** 64 - 1)
        index = f' {around(rng, 0, n)}' if door == 'code' else ''
        return f'{door} {at}{index} {hexed(front + data)}'
