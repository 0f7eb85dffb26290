"""Fields, the cursor and the runtime record, against scroll's own reads and writes."""
import struct

from .common import around, hexed, joined, noise, words_at, written

NAME = 'ground'
DOORS = ['u8', 'u16', 'u32', 'u64', 'next8', 'next16', 'next32', 'next64', 'put8', 'put16', 'put32', 'put64', 'runtime', 'runtime_put']
WIDTH = {'8': 1, '16': 2, '32': 4, '64': 8}


def expected(line):
    """The answer of docs/SPEC.md. A put or a record has no order; `next` gives the number and where it ends."""
    door, *words = line.split(' ')
    data = bytes.fromhex(words.pop()[1:])
    order = '>' if words[:1] == ['be'] else '<'
    numbers = [int(word) for word in words if word not in ('le', 'be')]
    at = numbers[0]
    if door == 'runtime':
        return 'no 1' if at + 12 > len(data) else joined(*words_at(data, at, 3))
    if door == 'runtime_put':
        form, values = '<3I', numbers[1:]
    else:
        form, values = order + {'8': 'B', '16': 'H', '32': 'I', '64': 'Q'}[door.lstrip('abcdefghijklmnopqrstuvwxyz')], numbers[1:]
    size = struct.calcsize(form)
    if door.startswith(('put', 'runtime_put')):
        if at + size > len(data):
            return f'no 13 {hexed(data)}'
        return f'ok {hexed(data[:at] + struct.pack(form, *values) + data[at + size:])}'
    if at + size > len(data):
        return 'no 1'
    value = struct.unpack_from(form, data, at)[0]
    return joined(value, at + size) if door.startswith('next') else joined(value)


def goblin(line):
    """goblin's answer where it is another."""
    words = line.split(' ')
    data = bytes.fromhex(words[-1][1:])
    return written(data, int(words[1]), *(struct.pack('<I', int(word)) for word in words[2:5]))


def partial(line):
    """A record of which the first field fits, and not all of it."""
    words = line.split(' ')
    room = len(words[-1]) // 2
    return words[0] == 'runtime_put' and int(words[1]) + 4 <= room < int(words[1]) + 12


# entry of docs/DIFFERENCES.md, and a predicate on the request; our answer is `expected` there, and goblin's is `goblin`
RULES = [
    ('D1', partial),
]


def always(rng):
    """Every offset up to one past each length up to 13, in both orders, for every width."""
    for n in range(14):
        data = hexed(range(1, n + 1))
        for at in range(n + 2):
            yield f'u8 {at} {data}'
            yield f'next8 {at} {data}'
            yield f'put8 {at} 170 {data}'
            yield f'runtime {at} {data}'
            yield f'runtime_put {at} 16909060 4294967295 0 {data}'
            for bits in ('16', '32', '64'):
                for order in ('le', 'be'):
                    yield f'u{bits} {order} {at} {data}'
                    yield f'next{bits} {order} {at} {data}'
                    yield f'put{bits} {order} {at} {2 ** int(bits) - 2} {data}'


def one(rng):
    door = rng.choice(DOORS)
    data = noise(rng, rng.choice([0, 1, 2, 3, 7, 8, 9, 12, 15, 16, 40]))
    width = 12 if door.startswith('runtime') else WIDTH[door.lstrip('abcdefghijklmnopqrstuvwxyz')]
    at = around(rng, 0, len(data), max(len(data) - width, 0), 2 ** 64 - 1, 2 ** 32)
    order = '' if width in (1, 12) else rng.choice(['le ', 'be '])
    numbers = ''
    if door.startswith('put'):
        numbers = f' {rng.getrandbits(8 * width)}'
    if door == 'runtime_put':
        numbers = ''.join(f' {rng.getrandbits(32)}' for _ in range(3))
    return f'{door} {order}{at}{numbers} {hexed(data)}'
