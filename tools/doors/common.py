"""What the families share: requests taken apart, answers put together, and numbers and bytes to ask with."""
import struct


def hexed(data):
    return 'x' + bytes(data).hex()


def taken(line):
    """A request's door, its numbers and its bytes."""
    words = line.split(' ')
    return words[0], [int(w) for w in words[1:-1]], bytes.fromhex(words[-1][1:])


def joined(*numbers):
    return 'ok ' + ' '.join(map(str, numbers))


def words_at(data, at, n):
    """n words of 32 bits, or None where they are not all there."""
    return struct.unpack_from(f'<{n}I', data, at) if at + 4 * n <= len(data) else None


def refusal(answer):
    """An answer of docs/SPEC.md as goblin gives it: a refusal has no number."""
    return 'no' if answer.startswith('no') else answer


def written(data, at, *fields):
    """What goblin's derived writer leaves: field by field, up to the first that does not fit."""
    for field in fields:
        if at + len(field) > len(data):
            return f'no {hexed(data)}'
        data = data[:at] + field + data[at + len(field):]
        at += len(field)
    return f'ok {hexed(data)}'


def noise(rng, n):
    return bytes(rng.getrandbits(8) for _ in range(n))


def around(rng, *borders):
    """A number at or near one of the borders, or anywhere."""
    n = rng.choice(borders) + rng.randint(-2, 2)
    if rng.random() < 0.1:
        n = rng.getrandbits(rng.choice([8, 16, 32, 33, 63, 64]))
    return min(max(n, 0), 2 ** 64 - 1)
