"""ELF32 executables for MicroBlaze: written from parts, and read with the tests that an image has to pass.

A part is `Part(address, data, zeros, code)`: its bytes stand at the address, and so many zeros behind them.
"""
import dataclasses
import struct

MACHINE, OLD_MACHINE = 189, 0xBAAB
MARK = {"big": ">", "little": "<"}


class Refused(Exception):
    """The first test that an image fails: its code, and where."""

    def __init__(self, code, at):
        super().__init__(code, at)
        self.code, self.at = code, at


@dataclasses.dataclass
class Part:
    address: int
    data: bytes
    zeros: int = 0
    code: bool = True


@dataclasses.dataclass
class Image:
    order: str
    entry: int
    parts: list


def words(listed, order="big"):
    """The bytes of a list of words."""
    return struct.pack(f"{MARK[order]}{len(listed)}I", *listed)


def write(image):
    """The bytes of a file with one loaded segment for each part."""
    mark, count = MARK[image.order], len(image.parts)
    ident = b"\x7fELF" + bytes([1, 2 if image.order == "big" else 1, 1]) + bytes(9)
    header = ident + struct.pack(mark + "HHIIIIIHHHHHH", 2, MACHINE, 1, image.entry, 52, 0, 0, 52, 32, count, 0, 0, 0)
    place, table = 52 + 32 * count, b""
    for part in image.parts:
        size = len(part.data)
        table += struct.pack(mark + "8I", 1, place, part.address, part.address, size, size + part.zeros, 5 if part.code else 6, 1)
        place += size
    return header + table + b"".join(part.data for part in image.parts)


def header_of(data):
    """Byte order, entry, and the place and number of the program headers."""
    if data[:4] != b"\x7fELF":
        raise Refused(701, 0)
    if len(data) < 52:
        raise Refused(706, 0)
    if data[4] != 1 or data[5] not in (1, 2):
        raise Refused(702, 4)
    order = "little" if data[5] == 1 else "big"
    kind, machine, version, entry, headers = struct.unpack_from(MARK[order] + "HHIII", data, 16)
    size, count = struct.unpack_from(MARK[order] + "HH", data, 42)
    for fails, code, at in ((data[6] != 1 or version != 1, 703, 6), (kind != 2, 704, 16),
                            (machine not in (MACHINE, OLD_MACHINE), 705, 18), (count and size != 32, 707, 42),
                            (count and headers + 32 * count > len(data), 706, headers)):
        if fails:
            raise Refused(code, at)
    return order, entry, headers, count


def read(data, memory):
    """The image, for a memory of so many bytes; `Refused` with the first test that fails."""
    order, entry, headers, count = header_of(data)
    loaded = []
    for index in range(count):
        kind, place, address, _, size, room, flags, _ = struct.unpack_from(MARK[order] + "8I", data, headers + 32 * index)
        if kind != 1:
            continue
        for fails, code, at in ((size > room, 710, index), (size and place + size > len(data), 706, place),
                                (room and address + room > memory, 709, index)):
            if fails:
                raise Refused(code, at)
        if room:
            loaded.append((index, Part(address, data[place:place + size], room - size, bool(flags & 1))))
    if not loaded:
        raise Refused(708, 0)
    ranges = [(part.address, part.address + len(part.data) + part.zeros) for _, part in loaded]
    for k, (index, _) in enumerate(loaded):
        if any(ranges[k][0] < end and begin < ranges[k][1] for begin, end in ranges[:k]):
            raise Refused(711, index)
    if entry % 4 or not any(begin <= entry < end for begin, end in ranges):
        raise Refused(712, entry)
    return Image(order, entry, [part for _, part in loaded])


def section(data, mark, headers, index):
    """Type, place, size, link and entry size of a section."""
    kind, _, _, place, size, link, _, _, entry = struct.unpack_from(mark + "9I", data, headers + 40 * index + 4)
    return kind, place, size, link, entry


def symbols(data):
    """Names and values of the symbol table, in its order; none where it isn't whole."""
    if len(data) < 52 or data[:4] != b"\x7fELF" or data[4] != 1 or data[5] not in (1, 2):
        return []
    mark = ">" if data[5] == 2 else "<"
    headers, = struct.unpack_from(mark + "I", data, 32)
    header_size, count = struct.unpack_from(mark + "HH", data, 46)
    if header_size != 40 or headers + 40 * count > len(data):
        return []
    sections = [section(data, mark, headers, k) for k in range(count)]
    table = next((one for one in sections if one[0] == 2 and one[4] == 16), None)
    if table is None or table[3] >= count or sections[table[3]][0] != 3:
        return []
    _, place, size, link, _ = table
    _, begin, length, _, _ = sections[link]
    if size % 16 or place + size > len(data) or begin + length > len(data):
        return []
    names, found = data[begin:begin + length], []
    for at in range(place, place + size, 16):
        name, value = struct.unpack_from(mark + "II", data, at)
        end = names.find(b"\0", name)
        if name >= length or end < 0:
            return []
        found.append((names[name:end], value))
    return found
