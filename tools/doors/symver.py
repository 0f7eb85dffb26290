"""GNU symbol version tables, against the sections' iterators. `part` is our answer 1 beside what was listed, which is no refusal."""
import struct

from .common import around, hexed, noise, refusal

NAME = 'symver'
DOORS = ['versym_count', 'versym', 'verdefs', 'verdauxs', 'verneeds', 'vernauxs']
# the record, its auxiliary, and the places of count, aux and next in the record and of next in the auxiliary
KINDS = {'verdef': ('HHHHIII', 'II', 3, 5, 6, 1), 'verneed': ('HHIII', 'IHHII', 1, 3, 4, 4)}


def taken(line):
    words = line.split(' ')
    return words[0], words[1] == 'be', [int(w) for w in words[2:-1]], bytes.fromhex(words[-1][1:])


def walk(order, form, place, data, count):
    """Records from the front by their next offsets, at most `count`: (offset, fields) of each, and whether bad bytes ended it."""
    at, rows = 0, []
    for _ in range(count):
        if at + struct.calcsize(order + form) > len(data):
            return rows, True
        fields = struct.unpack_from(order + form, data, at)
        rows.append((at, fields))
        if fields[place] == 0:
            return rows, False
        at += fields[place]
    return rows, False


def records(order, kind, data, count):
    form, _, _, aux, next_, _ = KINDS[kind]
    rows, cut = walk(order, form, next_, data, count)
    for k, (at, fields) in enumerate(rows):
        if at + fields[aux] >= len(data):
            return rows[:k], True
    return rows, cut


def listing(rows, cut):
    words = ['part' if cut else 'ok', str(len(rows))]
    return ' '.join(words + [str(n) for _, fields in rows for n in fields])


def expected(line, limit=65535):
    door, big, numbers, data = taken(line)
    order = '>' if big else '<'
    start, size = numbers[:2]
    if door.startswith('versym'):
        if start + size > len(data):
            return 'no 1'
        if door == 'versym_count':
            return f'{"part" if size % 2 else "ok"} {size // 2}'
        if numbers[2] >= size // 2:
            return 'no 10'
        value = struct.unpack_from(order + 'H', data, start + 2 * numbers[2])[0]
        return f'ok {value >> 15} {value & 0x7FFF}'
    count, last = numbers[2:]
    if count > limit:
        return 'no 3'
    if start + size > len(data):
        return 'no 1'
    kind = 'verdef' if door.startswith('verd') else 'verneed'
    part = data[start:start + size]
    rows, cut = records(order, kind, part, count)
    if not door.endswith('auxs'):
        return listing(rows, cut) if len(rows) <= last else 'no 13'
    if last >= len(rows):
        return 'no 10'
    _, aux_form, number, aux, _, next_ = KINDS[kind]
    at, fields = rows[last]
    return listing(*walk(order, aux_form, next_, part[at + fields[aux]:], fields[number]))


def goblin(line):
    """goblin's answer where it is another: it walks as many as the section states."""
    answer = expected(line, 2 ** 32 - 1)
    return 'ok ' + answer[5:] if answer.startswith('part ') else refusal(answer)


def over_limit(line):
    door, _, numbers, _ = taken(line)
    return not door.startswith('versym') and numbers[2] > 65535


RULES = [
    ('D11', over_limit),
]


def section(rng, order, kind):
    """A section as a linker writes it: records with their auxiliaries behind them."""
    form, aux_form, number, aux, next_, aux_next = KINDS[kind]
    data = b''
    count = rng.choice([0, 1, 1, 2, 3, 5])
    for k in range(count):
        n = rng.choice([0, 1, 1, 2, 3])
        fields = [rng.getrandbits(8 * struct.calcsize(order + c)) for c in form]
        size, aux_size = struct.calcsize(order + form), struct.calcsize(order + aux_form)
        fields[number], fields[aux], fields[next_] = n, size, 0 if k == count - 1 else size + n * aux_size
        data += struct.pack(order + form, *fields)
        for j in range(n):
            more = [rng.getrandbits(8 * struct.calcsize(order + c)) for c in aux_form]
            more[aux_next] = 0 if j == n - 1 else aux_size
            data += struct.pack(order + aux_form, *more)
    return data, count


def always(rng):
    for order in ('le', 'be'):
        for n in range(8):
            data = hexed(bytes([1, 0x80, 2, 0, 0xFF, 0x7F, 3, 4])[:n])
            for size in range(n + 2):
                yield f'versym_count {order} 0 {size} {data}'
                for index in range(5):
                    yield f'versym {order} 0 {size} {index} {data}'
        e = '<' if order == 'le' else '>'
        definition = struct.pack(e + 'HHHHIII', 1, 1, 1, 2, 7, 20, 36) + struct.pack(e + 'IIII', 5, 8, 6, 0)
        definition += struct.pack(e + 'HHHHIII', 1, 0, 2, 1, 8, 20, 0) + struct.pack(e + 'II', 9, 0)
        need = struct.pack(e + 'HHIII', 1, 2, 3, 16, 48) + struct.pack(e + 'IHHIIIHHII', 1, 2, 3, 4, 16, 5, 6, 7, 8, 0)
        need += struct.pack(e + 'HHIII', 1, 1, 9, 16, 0) + struct.pack(e + 'IHHII', 1, 2, 3, 4, 0)
        for kind, data in (('verdef', definition), ('verneed', need)):
            doors = {'verdef': ('verdefs', 'verdauxs'), 'verneed': ('verneeds', 'vernauxs')}[kind]
            for n in range(len(data) + 1):
                for last in (0, 1, 2):
                    yield f'{doors[0]} {order} 0 {n} 2 {last} {hexed(data)}'
                    yield f'{doors[1]} {order} 0 {n} 2 {last} {hexed(data)}'
            for count in (0, 1, 2, 3, 65534, 65535, 65536, 2 ** 32 - 1):
                yield f'{doors[0]} {order} 0 {len(data)} {count} 9 {hexed(data)}'
            for start, size in ((1, len(data)), (len(data), 0), (len(data) + 1, 0), (2 ** 64 - 1, 1), (0, 2 ** 64 - 1)):
                yield f'{doors[0]} {order} {start} {size} 2 9 {hexed(data)}'


def one(rng):
    order = rng.choice(['le', 'be'])
    door = rng.choice(['versym', 'versym_count'] + ['verdefs', 'verdauxs', 'verneeds', 'vernauxs'] * 3)
    front = noise(rng, rng.choice([0, 0, 3, 4]))
    if door.startswith('versym'):
        data = noise(rng, rng.randrange(12))
        size = len(data) if rng.random() < 0.8 else around(rng, len(data), 2 ** 64 - 1)
        index = f' {around(rng, 0, len(data) // 2, 2 ** 63)}' if door == 'versym' else ''
        return f'{door} {order} {len(front)} {size}{index} {hexed(front + data)}'
    kind = 'verdef' if door.startswith('verd') else 'verneed'
    data, stated = section(rng, '<' if order == 'le' else '>', kind)
    data = bytearray(data)
    for _ in range(rng.choice([0, 1, 1, 2, 3])):
        if data:
            data[rng.randrange(len(data))] = rng.choice([0, 1, 8, 16, 20, len(data) % 256, 255, rng.getrandbits(8)])
    size = len(data) if rng.random() < 0.8 else around(rng, len(data), 0)
    if rng.random() < 0.3:
        stated = around(rng, stated, stated + 3, 65535) % 2 ** 32
    return f'{door} {order} {len(front)} {size} {stated} {rng.choice([0, 1, 2, 3, 9])} {hexed(front + data)}'
