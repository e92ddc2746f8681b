"""Damaged files: a file that is right, changed in a place or a few."""
import re

LIMITS = [0, 1, 2, 3, 4, 15, 16, 17, 31, 32, 33, 40, 63, 64, 65, 80, 81, 127, 128, 255, 256, 257, 4095, 4096, 4097, 32_767, 32_768, 32_769,
          65_535, 65_536, 65_537, 1_000_000, 1_000_001, 1_048_576, 1_048_577, 67_108_860, 67_108_864, 67_108_865, 10**12, 10**12 + 1,
          2**31 - 1, 2**31, 2**31 + 1, 2**32 - 4096, 2**32 - 1, 2**32, 2**32 + 1, 2**63 - 1, 2**63, 2**64]
BYTES = [0, 1, 9, 10, 13, 31, 32, 34, 35, 39, 44, 45, 46, 58, 61, 91, 92, 93, 95, 123, 125, 127, 128, 0xBF, 0xC0, 0xE2, 0xEF, 0xF4, 255]
WORD = re.compile(rb"[A-Za-z0-9_.]+|[^\sA-Za-z0-9_.]")
NUMBER = re.compile(rb"-?\b(?:0x[0-9A-Fa-f]+|[0-9]+)\b")


def place(chance, data):
    return chance.randrange(len(data) + 1)


def stretch(chance, data):
    """The ends of a short stretch of the data."""
    begin = place(chance, data)
    return begin, min(len(data), begin + chance.choice((1, 1, 2, 4, 8, chance.randrange(1, 64))))


def flip(chance, data, others):
    if not data:
        return data
    at = chance.randrange(len(data))
    return data[:at] + bytes([data[at] ^ 1 << chance.randrange(8)]) + data[at + 1:]


def put_byte(chance, data, others):
    at = place(chance, data)
    return data[:at] + bytes([chance.choice(BYTES)]) + data[at + chance.randrange(2):]


def cut(chance, data, others):
    return data[:place(chance, data)] if chance.random() < 0.8 else data[place(chance, data):]


def leave_out(chance, data, others):
    begin, end = stretch(chance, data)
    return data[:begin] + data[end:]


def repeat(chance, data, others):
    begin, end = stretch(chance, data)
    return data[:end] + data[begin:end] * chance.choice((1, 1, 2, 90)) + data[end:]


def move(chance, data, others):
    (begin, end), at = stretch(chance, data), place(chance, data)
    return data[:at] + data[begin:end] + data[at:]


def splice(chance, data, others):
    """The front of one file and the end of another, or a stretch of another in the middle."""
    other = chance.choice(others)
    begin, end = stretch(chance, other)
    if chance.random() < 0.5:
        return data[:place(chance, data)] + other[begin:]
    at = place(chance, data)
    return data[:at] + other[begin:end] + data[at:]


def change_number(chance, data, others):
    found = list(NUMBER.finditer(data))
    if not found:
        return data
    one, number = chance.choice(found), chance.choice(LIMITS) * chance.choice((1, 1, 1, -1))
    text = chance.choice((str(number), str(number), f"{'-' * (number < 0)}0x{abs(number):x}", f"{'-' * (number < 0)}00{abs(number)}"))
    return data[:one.start()] + text.encode() + data[one.end():]


def change_line(chance, data, others):
    """A line goes, comes twice, changes its place, or comes from another file."""
    lines = data.split(b"\n")
    at, kind = chance.randrange(len(lines)), chance.randrange(4)
    if kind == 0:
        del lines[at]
    elif kind == 1:
        lines.insert(chance.randrange(len(lines) + 1), lines[at])
    elif kind == 2:
        lines.insert(chance.randrange(len(lines)), lines.pop(at))
    else:
        lines.insert(at, chance.choice(chance.choice(others).split(b"\n")))
    return b"\n".join(lines)


def change_word(chance, data, others):
    """A word of the file in the place of another one, or one from another file."""
    words = list(WORD.finditer(data))
    if not words:
        return data
    one, new = chance.choice(words), chance.choice(words).group()
    if chance.random() < 0.4:
        new = chance.choice(WORD.findall(chance.choice(others)) or [b""])
    return data[:one.start()] + new + data[one.end():]


BYTE_WAYS = (flip, flip, put_byte, put_byte, cut, leave_out, repeat, move, splice)
TEXT_WAYS = BYTE_WAYS + (change_number,) * 5 + (change_line,) * 4 + (change_word,) * 5


def damaged(chance, data, others, ways):
    """The data after a change or a few, each of which may take from the other files."""
    for _ in range(chance.choice((1, 1, 1, 1, 2, 2, 3, 6))):
        data = chance.choice(ways)(chance, data, others)
    return data


# fields of an ELF file: place and size, of its header and of a program header
HEADER = [(4, 1), (5, 1), (6, 1), (16, 2), (18, 2), (20, 4), (24, 4), (28, 4), (32, 4), (36, 4), (40, 2), (42, 2), (44, 2), (46, 2), (48, 2), (50, 2)]
SEGMENT = [(0, 4), (4, 4), (8, 4), (12, 4), (16, 4), (20, 4), (24, 4), (28, 4)]


def change_field(chance, data, others):
    """A field of the ELF header or of a program header is set to a limit, to a number near it or near the file's size."""
    data = bytearray(data)
    if len(data) < 52:
        return bytes(data)
    mark = "little" if data[5] == 1 else "big"
    begin = int.from_bytes(data[28:32], mark) + 32 * chance.randrange(6) if chance.random() < 0.7 else 0
    at, size = chance.choice(SEGMENT if begin else HEADER)
    at += begin
    if at + size > len(data):
        return bytes(data)
    old = int.from_bytes(data[at:at + size], mark)
    new = chance.choice((chance.choice(LIMITS), old + chance.choice((-4, -1, 1, 4, 32)), len(data) - old, len(data) + chance.randrange(-2, 3),
                         chance.getrandbits(8 * size), 0xBAAB, 189))
    data[at:at + size] = (new % 256**size).to_bytes(size, mark)
    return bytes(data)


def swap_segments(chance, data, others):
    """Two program headers change places, or one takes the words of another."""
    data = bytearray(data)
    mark = "little" if len(data) > 5 and data[5] == 1 else "big"
    begin = int.from_bytes(data[28:32], mark)
    one, other = (begin + 32 * chance.randrange(5) for _ in range(2))
    if max(one, other) + 32 > len(data):
        return bytes(data)
    first, second = data[one:one + 32], data[other:other + 32]
    if chance.random() < 0.5:
        data[one:one + 32], data[other:other + 32] = second, first
    else:
        at = 4 * chance.randrange(8)
        data[one + at:one + at + 4] = second[at:at + 4]
    return bytes(data)


def change_section(chance, data, others):
    """A field of a section header is set to a limit, to a number near it or near the file's size."""
    data = bytearray(data)
    mark = "little" if len(data) > 5 and data[5] == 1 else "big"
    at = int.from_bytes(data[32:36], mark) + 40 * chance.randrange(int.from_bytes(data[48:50], mark) + 1) + 4 * chance.randrange(10)
    if at + 4 > len(data):
        return bytes(data)
    old = int.from_bytes(data[at:at + 4], mark)
    new = chance.choice((chance.choice(LIMITS), old + chance.choice((-16, -1, 1, 4, 16)), len(data) - old, chance.randrange(16)))
    data[at:at + 4] = (new % 2**32).to_bytes(4, mark)
    return bytes(data)


SYMBOL_WAYS = (change_section, change_section, change_section, flip, change_field)
ELF_WAYS = (change_field,) * 12 + (swap_segments,) * 3 + BYTE_WAYS
