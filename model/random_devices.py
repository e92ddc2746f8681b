"""Boards with devices at random: cores with timers, a controller and UARTs, whose programs set them up, touch their registers
by chance and handle their interrupts.

Each is a function of its seed. The registers from r24 on hold the bases of a core's devices.
"""
import pathlib
import random

import elf
import random_boards
from random_boards import END, HANDLER, NAMES, NOTHING, VECTORS, some_register, word_of

BASES = (0x41200000, 0x41C00000, 0x40600000, 0x41210000, 0x00010000, 0x80000000, 0xFFFFF000)
IE = 2
# what is mostly written to each register
USUAL = {
    "timer": {place + offset: values for place in (0, 0x10) for offset, values in (
        (0x0, (0xD2, 0x1D2, 0xD0, 0x1D0, 0xC2, 0xC0, 0x22, 0x20, 0x100, 0x400, 0x4D2, 0x5F6, 0, 0x201, 0x8D2)),
        (0x4, (0, 1, 2, 5, 20, -1, -2, -7)), (0x8, (7,)))},
    "intc": {0x0: (0, 1, 0xFF, -1), 0x4: (5,), 0x8: (-1, -1, 0x3F, 1), 0xC: (-1, -1, 1, 2), 0x10: (-1, 4), 0x14: (1, 2), 0x18: (0,),
             0x1C: (3, 3, 3, 1, 2, 0)},
    "uart": {0x0: (1,), 0x4: (0x41, 0x42, 0x143, -1), 0x8: (1,), 0xC: (0x10, 0x10, 0x10, 0x13, 0x11, 0x12, 0, 3)},
}
READS = {"timer": (0x0, 0x4, 0x8, 0x10, 0x14, 0x18), "intc": (0x0, 0x4, 0x8, 0x18, 0x18, 0x1C, 0xC, 0x10, 0x14),
         "uart": (0x0, 0x8, 0x8, 0x8, 0x4, 0xC)}
STRANGE = (0xC, 0x10, 0x1C, 0x20, 0x100, 0xFFC, 0x1, 0x2, 0x3, 0x5)


def put_register(number, value):
    return [0xB0000000 | value >> 16 & 0xFFFF, word_of_sum(number, value)]


def word_of_sum(number, value):
    """`addik` of a value to r0."""
    return 0x30000000 | number << 21 | value & 0xFFFF


def write_word(chance, base, offset, value, register=22):
    return [word_of_sum(register, value), word_of(chance, "swi", rd=register, ra=base, low=offset)]


def touch(chance, devices):
    """Reads or writes a register of a device, now and then one that isn't there, or a byte or half of it."""
    kind, base = chance.choice(devices)
    strange = chance.random() < 0.08
    if chance.random() < 0.06:
        name = chance.choice(("lbui", "lhui", "sbi", "shi"))
        return [word_of(chance, name, rd=some_register(chance), ra=base, low=chance.choice(list(USUAL[kind])))]
    if chance.random() < 0.4:
        return [word_of(chance, "lwi", rd=some_register(chance), ra=base, low=chance.choice(STRANGE if strange else READS[kind]))]
    offset = chance.choice(list(USUAL[kind]))
    value = chance.choice(USUAL[kind][offset]) if chance.random() < 0.9 else chance.getrandbits(16)
    return write_word(chance, base, chance.choice(STRANGE) if strange else offset, value)


# a walk: long random uses of registers, each followed by a look

STATUS_BITS = {0x2: 0.5, 0x4: 0.1, 0x10: 0.4, 0x20: 0.15, 0x40: 0.5, 0x80: 0.7, 0x100: 0.3, 0x400: 0.25}


def status_word(chance):
    """A word for TCSR: any bits that are taken, now and then with one that is refused."""
    word = sum(bit for bit, often in STATUS_BITS.items() if chance.random() < often)
    return word | 1 << chance.choice((0, 3, 9, *range(11, 32))) if chance.random() < 0.06 else word


def walk_write(chance, kind):
    """An offset and a word to write there."""
    if kind == "timer":
        offset = chance.choice((0x0, 0x0, 0x0, 0x4, 0x8)) + chance.choice((0, 0x10))
        return offset, status_word(chance) if offset % 0x10 == 0 else chance.randrange(-4, 4) & 0xFFFFFFFF
    if kind == "intc":
        offset = chance.choice((0x0, 0x0, 0x8, 0x8, 0xC, 0x10, 0x14, 0x1C))
        return offset, chance.choice((0, 1, 1, 2, 3)) if offset == 0x1C else chance.getrandbits(32) & chance.getrandbits(32)
    offset = chance.choice((0x4, 0x4, 0x4, 0xC))
    return offset, chance.choice((0, 0x10, 0x11, 0x12, 0x13, 1, 2)) if offset == 0xC else chance.getrandbits(9)


def walk(chance, devices):
    kind, base = chance.choice(devices)
    offset, value = walk_write(chance, kind)
    words = put_register(22, value) + [word_of(chance, "swi", rd=22, ra=base, low=offset)]
    words += words[-1:] * chance.randrange(1, 20) if kind == "uart" and chance.random() < 0.1 else []
    looks = [word_of(chance, "lwi", rd=some_register(chance), ra=base, low=chance.choice(READS[kind])) for _ in range(chance.randrange(3))]
    return words + [NOTHING] * chance.choice((0, 0, 0, 1, 2, 3, 8)) + looks


def start(chance, kind, base):
    """What makes a device work."""
    if kind == "intc":
        return write_word(chance, base, 0x8, -1) + write_word(chance, base, 0x1C, 3)
    if kind == "uart":
        return write_word(chance, base, 0xC, chance.choice((0x10, 0x10, 0x12, 0)))
    place = chance.choice((0, 0x10))
    way = chance.choice((0x2, 0x0))
    load = chance.randrange(1, 60)
    return (write_word(chance, base, place + 0x4, load if way else -load) + write_word(chance, base, place, 0x20 | way)
            + write_word(chance, base, place, 0xC0 | way | chance.choice((0x10, 0x10, 0))))


def calm(chance, kind, base):
    """What a handler does about a device: it ends a timer's request, or takes a byte and sends it back."""
    if kind == "timer":
        again = chance.choice((0x1D2, 0x1D2, 0x1D0, 0x100))
        return [word for place in (0, 0x10) for word in write_word(chance, base, place, again, 28)]
    if kind == "uart":
        status = [word_of(chance, "lwi", rd=29, ra=base, low=8), word_of(chance, "andi", rd=29, ra=29, low=1)]
        return status + [word_of(chance, "beqi", ra=29, low=12), word_of(chance, "lwi", rd=29, ra=base, low=0),
                         word_of(chance, "swi", rd=29, ra=base, low=4)]
    reads = chance.choice(([word_of(chance, "lwi", rd=28, ra=base, low=4)], [word_of_sum(28, -1)]))
    return reads + [word_of(chance, "swi", rd=28, ra=base, low=0xC)]


def handler(chance, ports, devices):
    """Calms the devices, the controller last, and goes back; now and then it forgets something."""
    words = [0x30420001]
    for kind, base in sorted(devices, key=lambda device: device[0] == "intc"):
        if chance.random() < 0.93:
            words += calm(chance, kind, base)
    if ports["put"] and chance.random() < 0.6:
        words.append(0x6C02C000 | chance.choice(ports["put"]))
    if chance.random() < 0.1:
        words += touch(chance, devices)
    back = word_of(chance, "rtid", ra=14, low=0) if chance.random() < 0.97 else word_of(chance, "rtsd", ra=14, low=4)
    return words + [back, chance.choice((NOTHING, random_boards.sum_word(chance), word_of_sum(3, 7)))]


def middle(chance, ports, devices):
    kind = chance.random()
    if kind < 0.5:
        return touch(chance, devices)
    if kind < 0.6:
        return start(chance, *chance.choice(devices))
    if kind < 0.66:
        return [word_of(chance, "mbar", rd=16)]
    if kind < 0.7:
        return [chance.choice((0x94100000, 0x94100000, 0x94110000)) | IE]
    return random_boards.piece(chance, ports, False)


def image(chance, ports, devices):
    begin = [0x94100000 | chance.choice((0x100, 0x100, 0x100, 0))]
    for number, (base, _) in enumerate(devices):
        begin += put_register(24 + number, base)
    devices = [(kind, 24 + number) for number, (_, kind) in enumerate(devices)]
    for kind, base in devices:
        begin += start(chance, kind, base) if chance.random() < 0.8 else []
    begin += [0x94100000 | IE] * (chance.random() < 0.85)
    if chance.random() < 0.35:
        body = [word for _ in range(chance.randrange(20, 50)) for word in walk(chance, devices)]
    else:
        body = [word for _ in range(chance.randrange(4, 16)) for word in middle(chance, ports, devices)]
        body += random_boards.traffic(chance, ports, False) if chance.random() < 0.4 else []
    masked, asleep, again = [0x94110000 | IE, END], [word_of(chance, "mbar", rd=24), END], [0xB8000000 | -4 * len(body) & 0xFFFF]
    ending = chance.choice(([END], masked, masked, asleep, again))
    order = chance.choice(("big", "big", "little"))
    vectors = [0xB8080040] + [NOTHING] * 3 + VECTORS
    parts = [elf.Part(0, elf.words(vectors, order)), elf.Part(0x40, elf.words(begin + body + ending, order)),
             elf.Part(0x800, b"\x80\x01\x02\x03", 28, False), elf.Part(HANDLER, elf.words(handler(chance, ports, devices), order))]
    return elf.write(elf.Image(order, 0x40, parts))


def device_tables(chance, core, version):
    """Tables of a core's devices, which have clocks in version 2, and the bases and kinds of them."""
    kinds = ["intc"] * (chance.random() < 0.85) + ["timer"] * chance.choice((0, 1, 1, 2)) + ["uart"] * chance.choice((0, 1, 1, 2))
    bases, numbers = chance.sample(BASES, len(kinds)), chance.sample(range(32), len(kinds))
    tables = []
    for base, kind, number in zip(bases, kinds, numbers):
        name = f"{chance.choice('abxyz')}{number}_{core}"
        rows = [f"[{kind}.{name}]", f'core = "{core}"', f"base = {base}"]
        if kind != "intc" and "intc" in kinds and chance.random() < 0.9:
            rows.append(f"irq = {number}")
        if version == 2 and chance.random() < 0.8:
            rows.append(f"clock = {chance.randrange(1, 6)}")
        if kind == "uart":
            rows.append(f'output = "text_{name}"')
            rows += [f'input = "typed{chance.randrange(2)}"'] * (chance.random() < 0.7)
            rows += [f"every = {chance.choice((1, 1, 2, 3, 7, 20, 64))}"] * (chance.random() < 0.9)
        tables.append("\n".join(rows))
    return tables, list(zip(bases, kinds))


def device_board(seed, folder):
    """Writes a board with devices, its images and inputs; answers the words to run it with."""
    chance = random.Random(seed)
    names, version = chance.sample(NAMES, chance.randrange(1, 4)), chance.choice((1, 2, 2))
    tables, ports = random_boards.random_links(chance, names)
    pipelines = random_boards.some_pipelines(chance)
    for name in names:
        more, devices = device_tables(chance, name, version)
        tables += more + [random_boards.core_table(chance, name, pipelines)]
        made = image(chance, ports[name], devices) if devices else random_boards.random_image(chance, ports[name], False)
        pathlib.Path(folder, f"{name}.elf").write_bytes(made)
    for number in range(2):
        pathlib.Path(folder, f"typed{number}").write_bytes(chance.randbytes(chance.choice((0, 1, 5, 20, 40))))
    return random_boards.write_board(chance, folder, tables + random_boards.event_tables(chance, names), version=version)
