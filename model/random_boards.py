"""Boards at random: programs that use links, boards of them with inputs and breaks, and board files and images with faults.

Each is a function of its seed.
"""
import json
import pathlib
import random
import re

import board
import core
import elf
import timing
from instructions import FIELDS

END, NOTHING = 0xB8000000, 0x80000000
ROWS = {name: (form, bits) for name, form, bits in core.ROWS}
SUMS = ("add rsub addc addk addik rsubik addic cmp cmpu mul mulhu muli bsrl bsra bslli bsrai idiv idivu or xori andi pcmpbf pcmpne sra src "
        "sext8 clz swapb swaph wdc wic").split()
BRANCHES = "beqid bneid bltid bgeid brid beqi bgti".split()
HANDLER = 0x900  # of interrupts
# the words from 10 hex on: an interrupt's vector, a break's, and a handler that sends the cause and goes on
VECTORS = [0xB8080000 | HANDLER, NOTHING, 0xB6500000, 0x30420001, 0x94608005, 0x6C03C000, 0x30210001, 0xB6910000, NOTHING]
WITHOUT_N = [word & ~0x4000 if word == 0x6C03C000 else word for word in VECTORS]


# random programs

def word_of(chance, name, **fields):
    """A word of a row: its named fields as given, and all other bits that the row leaves open by chance."""
    form, bits = ROWS[name]
    word = bits | chance.getrandbits(32) & ~core.MASKS[form] & core.WORD
    for field, value in fields.items():
        shift, mask = {"rd": (21, 31), "ra": (16, 31), "rb": (11, 31), "low": (0, 0xFFFF)}[field]
        word = word & ~(mask << shift) | (value & mask) << shift
    return word


def some_register(chance):
    """Mostly one of a few, so that what is made is soon used."""
    return chance.choice((3, 4, 5, 6, chance.randrange(16), chance.randrange(16)))


def sum_word(chance):
    name = chance.choice(SUMS)
    fields = {field.lower(): some_register(chance) for field in FIELDS[ROWS[name][0]]}
    if ROWS[name][0] == "B":
        fields["low"] = chance.choice((chance.randrange(-8, 8), chance.getrandbits(16)))
    return word_of(chance, name, **fields)


def link_word(chance, ports, network):
    """A get or a put, mostly without letters and mostly at a port that leads somewhere."""
    name = chance.choice(("get", "put"))
    if not ports[name]:
        name = "put" if name == "get" else "get"
    port = chance.choice(ports[name] or [3]) if chance.random() < 0.97 else chance.randrange(16)
    flags = chance.choice((0, 16, 16, 16, 24, 18, 20, 2, chance.randrange(32)))
    if network and chance.random() < 0.98:
        flags &= 15
    if chance.random() < 0.15:
        # by a register that holds the port
        letters = flags << 5 & (0x3E0 if name == "get" else 0x3C0)
        form = (0x4C000000 | chance.randrange(16) << 21) if name == "get" else (0x4C000400 | chance.randrange(16) << 16)
        return [0x30000000 | 19 << 21 | port, form | 19 << 11 | letters]
    register = some_register(chance) << (21 if name == "get" else 16)
    return [ROWS[name][1] | register | flags << 10 & (0x7C00 if name == "get" else 0x7800) | port]


def memory_word(chance):
    name = chance.choice(("lwi", "swi", "lbui", "sbi", "lhui", "shi"))
    place = chance.choice((0x800 + 4 * chance.randrange(8), 0x800 + 4 * chance.randrange(8), 0x800 + 4 * chance.randrange(8),
                           0x800 + chance.randrange(32), chance.choice((0x800, 0x7000))))
    return word_of(chance, name, rd=some_register(chance), ra=0, low=place)


def patch(chance):
    """Stores a sum over a word some words ahead, or a byte that leaves it as it was; r18 has the address of the first word."""
    words = [word_of(chance, "mfs rpc", rd=18)]
    between = [sum_word(chance) for _ in range(chance.randrange(11))]
    target = sum_word(chance)
    register = chance.randrange(4, 16)
    if chance.random() < 0.3:
        place = 4 * chance.randrange(len(between) + 4) + 3
        words += [word_of(chance, "lbui", rd=register, ra=18, low=place), word_of(chance, "sbi", rd=register, ra=18, low=place)]
    else:
        new = sum_word(chance)
        words += [0xB0000000 | new >> 16, word_of(chance, "addik", rd=register, ra=0, low=new)]
        words += [word_of(chance, "brid", low=8)] * (chance.random() < 0.3)
        words += [word_of(chance, "swi", rd=register, ra=18, low=4 * (len(words) + 1 + len(between)))]
    return words + between + [target]


def look(chance, ports, network):
    """Sends a special register, or a byte of a word that was stored."""
    port = chance.choice(ports["put"] or [3])
    name = "put" if network else chance.choice(("put", "nput"))
    send = 0x6C038000 | port | (0x4000 if name == "nput" else 0)
    place = 0x800 + 4 * chance.randrange(8)
    if chance.random() < 0.3:
        return [word_of(chance, "swi", ra=0, rd=chance.randrange(4, 10), low=place), word_of(chance, "lhui", rd=3, ra=0, low=place + 2), send]
    return [word_of(chance, "mfs " + chance.choice(("rmsr", "rmsr", "rmsr", "resr", "redr", "rear", "rbtr", "rpc")), rd=3), send]


def rare_word(chance):
    return chance.choice((
        word_of(chance, "mbar", rd=chance.choice((0, 8, 16, 24))), word_of(chance, "mbar", rd=chance.choice((16, 24))),
        0x94100000 | chance.choice((0x100, 0x102, 8, 4)), 0x94110000 | chance.choice((0x100, 8, 0x200, 0x10)),
        chance.getrandbits(32), word_of(chance, "brki", rd=16, low=0x18), word_of(chance, "mfs rmsr", rd=5)))


def piece(chance, ports, network, depth=0):
    """A few words that stand together: a prefix and its user, a branch and its slot, a loop."""
    kind = chance.random()
    if kind < 0.35:
        return link_word(chance, ports, network)
    if kind < 0.5:
        return look(chance, ports, network)
    if kind < 0.57:
        return [sum_word(chance)]
    if kind < 0.61:
        return patch(chance)
    if kind < 0.7:
        return [0xB0000000 | chance.getrandbits(16), word_of(chance, "addik", rd=chance.randrange(16), ra=0)]
    if kind < 0.8:
        inside = chance.choice((sum_word(chance), memory_word(chance), link_word(chance, ports, network)[-1]))
        return [word_of(chance, chance.choice(BRANCHES), low=8 + 4 * chance.randrange(3)), inside, sum_word(chance), NOTHING]
    if kind < 0.88 and not depth:
        body = [word for _ in range(chance.randrange(1, 5)) for word in piece(chance, ports, network, 1)]
        turns = [0x30000000 | 20 << 21 | chance.randrange(1, 6)]
        return turns + body + [word_of(chance, "addik", rd=20, ra=20, low=-1), word_of(chance, "bnei", ra=20, low=-4 * (len(body) + 1))]
    return [memory_word(chance) if kind < 0.96 else rare_word(chance)]


def between(chance, ports, network):
    kind = chance.random()
    if kind < 0.3 and ports["put"]:
        return look(chance, ports, network)
    if kind < 0.5:
        return [0xB0000000 | chance.getrandbits(16), word_of(chance, "addik", rd=chance.randrange(3, 16), ra=chance.randrange(8))]
    if kind < 0.7:
        return [word_of(chance, chance.choice(BRANCHES), low=8), sum_word(chance)]
    if kind < 0.73:
        return patch(chance)
    return [sum_word(chance) if kind < 0.85 else memory_word(chance) if kind < 0.97 else rare_word(chance)]


def traffic(chance, ports, network):
    """A loop that uses each port of the core once a turn, and does something else in between."""
    calls = [ROWS[name][1] | chance.randrange(3, 16) << (21 if name == "get" else 16) | port for name in ("get", "put") for port in ports[name]]
    if chance.random() < 0.3:
        chance.shuffle(calls)
    body = []
    for call in calls:
        # now and then with a letter: t, a or c, and n for one that tries again
        body.append(call | chance.choice((0, 0, 0, 0, 0x800, 0x2000, 0x1000, 0 if network else 0x4000, 0x400 if call < 0x6C008000 and not call & 0x8000 else 0)))
        body += [word for _ in range(chance.randrange(3)) for word in between(chance, ports, network)]
    again = [word_of(chance, "addik", rd=21, ra=21, low=-1), word_of(chance, "bnei", ra=21, low=-4 * (len(body) + 1))]
    return [0x30000000 | 21 << 21 | chance.randrange(2, 30)] + body + again


def random_image(chance, ports, network):
    begin = [0x94100000 | chance.choice((0x100, 0x100, 0))]
    begin += [0x30000000 | register << 21 | chance.choice((chance.getrandbits(16), chance.randrange(4))) for register in range(3, 10)]
    body = [word for _ in range(chance.randrange(6)) for word in piece(chance, ports, network)]
    if chance.random() < 0.7:
        body += traffic(chance, ports, network)
    else:
        body += [word for _ in range(chance.randrange(4, 20)) for word in piece(chance, ports, network)]
    ending = [END] if chance.random() < 0.85 else [0xB8000000 | -4 * len(body) & 0xFFFF]
    order = chance.choice(("big", "big", "little"))
    parts = [elf.Part(0, elf.words([0xB8080040] + [NOTHING] * 3 + (WITHOUT_N if network else VECTORS), order)),
             elf.Part(0x40, elf.words(begin + body + ending, order)), elf.Part(0x800, b"\x80\x01\x02\x03", 28, False)]
    chance.shuffle(parts)
    return elf.write(elf.Image(order, chance.choice((0, 0x40)), parts))


# random boards

NAMES = ["a", "b_1", "c9", "zz", "m", "_q"]


def random_links(chance, names):
    """Link tables, and for each core the ports of its gets and puts that lead somewhere."""
    ports = {name: {"get": [], "put": []} for name in names}
    free = {way: [(name, port) for name in names for port in (0, 1, 2, 15)] for way in ("get", "put")}
    for way in free:
        chance.shuffle(free[way])
    tables = []
    for number in range(chance.randrange(2 * len(names), 3 * len(names) + 2)):
        begins, ends = (free[way].pop() if chance.random() < 0.65 else None for way in ("put", "get"))
        if not begins and not ends:
            continue
        lines = [f"[link.l{chance.randrange(10)}_{number}]"] + [f"depth = {chance.randrange(1, 4)}"] * (chance.random() < 0.9)
        if begins:
            ports[begins[0]]["put"].append(begins[1])
            lines += [f'from = "{begins[0]}"', f"from_port = {begins[1]}"]
        else:
            lines.append(f'from_file = "in{chance.randrange(2)}"')
        if ends:
            ports[ends[0]]["get"].append(ends[1])
            lines += [f'to = "{ends[0]}"', f"to_port = {ends[1]}"]
        else:
            lines.append(f'to_file = "out{number}"')
        tables.append("\n".join(lines))
    return tables, ports


def core_table(chance, name, pipelines):
    rows = [f"[core.{name}]", f'image = "{name}.elf"', f'pipeline = "{chance.choice(pipelines)}"'] + [f"clock = {chance.randrange(1, 5)}"] * (chance.random() < 0.4)
    return "\n".join(rows + [f"memory = {chance.choice((4096, 8192))}"] * (chance.random() < 0.5))


def event_tables(chance, names):
    """Breaks, often two at once."""
    tables, cycle = [], 0
    for number in range(chance.choice((0, 0, 1, 3, 6, 12))):
        cycle = chance.choice((cycle, chance.randrange(90), chance.randrange(300)))
        tables.append(f'[event.e{number}]\ncore = "{chance.choice(names)}"\ncycle = {cycle}\n'
                      f'kind = "{chance.choice(("break", "break", "nonmaskable"))}"')
    return tables


def some_pipelines(chance):
    return chance.choice((timing.PIPELINES, timing.PIPELINES, timing.PIPELINES[:1], timing.PIPELINES[1:]))


def write_board(chance, folder, tables, network=False, version=1):
    """Writes a board file, and two input files for links; answers the words to run it with."""
    chance.shuffle(tables)
    top = [f'order = "{chance.choice(("ascending", "descending", "rotating"))}"'] * (chance.random() < 0.8) + ["network = true"] * network
    pathlib.Path(folder, "board.toml").write_text("\n".join([f"version = {version}"] + top + tables) + "\n")
    for number in range(2):
        items = [(chance.random() < 0.2, chance.getrandbits(chance.choice((3, 32)))) for _ in range(chance.randrange(10, 60))]
        pathlib.Path(folder, f"in{number}").write_bytes(board.bytes_of(items))
    return random_words(chance)


def random_board(seed, folder, network=None):
    """Writes a board with its images and inputs, mostly with pipelines mixed; answers the words to run it with."""
    chance = random.Random(seed)
    names = chance.sample(NAMES, chance.randrange(1, 5))
    network = chance.random() < 0.25 if network is None else network
    tables, ports = random_links(chance, names)
    pipelines = some_pipelines(chance)
    for name in names:
        pathlib.Path(folder, f"{name}.elf").write_bytes(random_image(chance, ports[name], network))
        tables.append(core_table(chance, name, pipelines))
    return write_board(chance, folder, tables + ([] if network else event_tables(chance, names)), network)


def change_pipelines(seed, folder, pipelines):
    """Writes the board anew, each core on one of these pipelines, in another order of turns."""
    chance, path = random.Random(seed), pathlib.Path(folder, "board.toml")
    text = re.sub('pipeline = "[a-z]+"', lambda _: f'pipeline = "{chance.choice(pipelines)}"', path.read_text())
    path.write_text(re.sub('order = "[a-z]+"', lambda _: f'order = "{chance.choice(("ascending", "descending", "rotating"))}"', text))


def random_words(chance):
    words = [["--cycles", str(chance.choice((chance.randrange(40), 300, 600, 600, 1200)))]]
    if chance.random() < 0.4:
        words.append([f"--journal={chance.choice((chance.randrange(40), chance.randrange(300), 2000))}"])
    words += [["--write-journal=journal"], ["board.toml"]]
    chance.shuffle(words)
    return ["run"] + [word for group in words for word in group]


# board files with faults

VALUES = [-1, 0, 1, 15, 16, 32, 255, 4096, 4097, 65_536, 1_000_000, 1_000_001, 10**12, 10**12 + 1, 2**32, 2**32 - 4096, 2**63 - 1, -2**63, 2**63,
          "", "a", "b", "nobody", "-x", "x" * 64, "x" * 65, "x y", "out", "a.elf", "in", "plain", "five", "six", "rotating", "break", "nonmaskable",
          True, False, 1.5, [], {}]
BAD_NAMES = ["A", "x" * 24, "x" * 25, "", "a.b", "\u00e9", "y" * 60 + "\u20ac\u20ac", "a b", "a-b"]


def whole_tree(chance):
    """A lawful board with everything, or with no devices."""
    port = {"from": "a", "from_port": 0, "to": "b", "to_port": 0}
    version = chance.choice((1, 2))
    tree = {"version": version, "order": "descending", "network": False,
            "core": {"a": {"image": "a.elf", "pipeline": "plain"}, "b": {"image": "b.elf", "pipeline": "plain", "clock": 1, "memory": 8192}},
            "link": {"x": {"depth": 1, **port}, "y": {"from": "b", "from_port": 1, "to_file": "out"}, "z": {"from_file": "in", "to": "a", "to_port": 3}},
            "event": {"e": {"core": "a", "cycle": 3, "kind": "break"}}}
    if chance.random() < 0.6:
        tree |= {"timer": {"t": {"core": "a", "base": 0x41C00000, "irq": 0}}, "intc": {"i": {"core": "a", "base": 0x41200000}},
                 "uart": {"u": {"core": "a", "base": 0x40600000, "output": "text", "irq": 1, "every": 3, "input": "in"}}}
        for table in ("timer", "intc", "uart") if version == 2 else ():
            for row in tree[table].values():
                row["clock"] = chance.randrange(1, 6)
    return tree


def change(chance, tree):
    """One change of a tree, most of them for the worse."""
    table = chance.choice([key for key, value in tree.items() if isinstance(value, dict) and value])
    name = chance.choice(list(tree[table]))
    row = tree[table][name]
    kind = chance.randrange(14)
    if kind == 0 and isinstance(row, dict) and row:
        del row[chance.choice(list(row))]
    elif kind < 7 and isinstance(row, dict) and row:
        # mostly of the same kind
        key = chance.choice(list(row))
        row[key] = chance.choice([value for value in VALUES if type(value) is type(row[key]) or chance.random() < 0.03] or VALUES)
    elif kind < 11 and isinstance(row, dict):
        # the same again under another name: ports, outputs, bases and numbers clash
        tree[table][chance.choice(["a", "b0", "c", "zz", "z_", chance.choice(BAD_NAMES)])] = dict(row)
        if chance.random() < 0.2:
            tree["network"] = True
    elif kind == 11:
        place = chance.choice([tree, tree, tree[table], row if isinstance(row, dict) else tree])
        place[chance.choice(["shared", "irq", "clock", "from_file", "to", "depth", "network", *BAD_NAMES])] = chance.choice(VALUES)
    elif kind == 12:
        chance.choice([tree, tree[table]])[chance.choice(["version", "order", "network", "core", "link", "timer", "a", "x"])] = chance.choice([True, 1, 2, "1", {}, 5])
    else:
        most = chance.choice([16, 17, 17, 64, 65, 256, 257])
        for number in range(most if isinstance(row, dict) and chance.random() < 0.4 else 0):
            tree[table][f"n{number}"] = dict(row)


def toml_of(tree):
    """The text of a tree."""
    def key_of(name):
        return name if name and all(letter in "abcdefghijklmnopqrstuvwxyz0123456789_-" for letter in name) else json.dumps(name, ensure_ascii=False)

    def value_of(value):
        if isinstance(value, dict):
            return "{" + ", ".join(f"{key_of(key)} = {value_of(one)}" for key, one in value.items()) + "}"
        return json.dumps(value, ensure_ascii=False)

    tables = {key: value for key, value in tree.items() if isinstance(value, dict)}
    lines = [f"{key_of(key)} = {value_of(value)}" for key, value in tree.items() if key not in tables]
    for table, found in tables.items():
        lines.append(f"[{key_of(table)}]")
        lines += [f"{key_of(name)} = {value_of(row)}" for name, row in found.items() if not isinstance(row, dict)]
        for name, row in found.items():
            if isinstance(row, dict):
                lines += [f"[{key_of(table)}.{key_of(name)}]"] + [f"{key_of(key)} = {value_of(value)}" for key, value in row.items()]
    return "\n".join(lines) + "\n"


def faulty_board(seed, folder):
    """Writes a board file with up to three changes, and its images; answers the words to run it with."""
    chance = random.Random(seed)
    tree = whole_tree(chance)
    for _ in range(chance.choice((1, 1, 1, 2, 3))):
        change(chance, tree)
    text = toml_of(tree).encode()
    if chance.random() < 0.06:
        text = text[:chance.randrange(len(text))]
    if chance.random() < 0.1:
        text = b"\xef\xbb\xbf" + text
    pathlib.Path(folder, "board.toml").write_bytes(text)
    image = elf.write(elf.Image("big", 0, [elf.Part(0, elf.words([0x6C607C03, 0x6C03C001, END]))]))
    for name in ("a.elf", "b.elf"):
        pathlib.Path(folder, name).write_bytes(image)
    pathlib.Path(folder, "in").write_bytes(board.bytes_of([(1, 7), (0, 8)]))
    return ["run", "board.toml", "--cycles", "40", "--write-journal", "journal"]


# images and inputs with faults

def faulty_image(seed, folder):
    """Writes a board whose image, and now and then its input, is damaged in a place or two; answers its words."""
    chance = random.Random(seed)
    order = chance.choice(("big", "little"))
    parts = [elf.Part(0, elf.words([0x6C600000, 0x6C038000, END], order), 8), elf.Part(0x100, b"data", 0, False), elf.Part(0xF00, b"", 256)]
    data = bytearray(elf.write(elf.Image(order, 0, parts)))
    for _ in range(chance.choice((1, 1, 2))):
        place = chance.choice((chance.randrange(0, 52), chance.randrange(52, 148)))
        data[place] = chance.choice((0, 1, 2, 4, 32, 127, 189, 255, data[place] ^ 1 << chance.randrange(8)))
    if chance.random() < 0.2:
        data = data[:chance.randrange(len(data))]
    pathlib.Path(folder, "c.elf").write_bytes(data)
    items = bytearray(board.bytes_of([(1, 7), (0, 8)]))
    if chance.random() < 0.3:
        items[chance.randrange(10)] = chance.randrange(256)
        items = items[:chance.randrange(11)]
    pathlib.Path(folder, "in").write_bytes(items)
    pathlib.Path(folder, "board.toml").write_text(
        'version = 1\ncore.c = {image = "c.elf", pipeline = "plain", memory = 4096}\n'
        'link.i = {from_file = "in", to = "c", to_port = 0}\nlink.o = {from = "c", from_port = 0, to_file = "out"}\n')
    return ["run", "board.toml", "--cycles", "40", "--write-journal", "journal"]
