"""The worst files at their limits, each with what the program has to answer.

A case has a name, the words, the files, the status, the line on the standard error without `mbsim: `, and the MiB that its words and
files ask for: memories of cores, room in the journal, and the bytes of large files once. A file is bytes, or a call that makes them.
"""
import dataclasses
import itertools
import string
import struct

import elf

BOARD, SOURCE, IMAGE, INPUT, MEMORY = 1_048_576, 4_194_304, 134_217_728, 4_194_304, 67_108_864
HEADERS, PARTS, BYTES = 65_535, 65_534, 1_048_576
END_WORD = elf.words([0xB8000000])


@dataclasses.dataclass
class Case:
    name: str
    words: str
    files: dict
    status: int = 0
    line: str = ""
    asked: int = 0

    def write(self, folder):
        for name, data in self.files.items():
            (folder / name).write_bytes(data() if callable(data) else data)


def filled(head, piece, size):
    """A text of so many bytes: a head, and a piece over and over."""
    return head + (piece * (size // len(piece) + 1))[:size - len(head)]


def numbered(head, form, size, first=0, count=None):
    """A text of at most so many bytes: a head, and a line for each number in turn, at most so many."""
    lines, room = [], size - len(head)
    for number in itertools.count(first) if count is None else range(first, first + count):
        line = form(number) + "\n"
        room -= len(line)
        if room < 0:
            break
        lines.append(line)
    return (head + "".join(lines)).encode()


def short_name(number):
    """A name of few letters for each number."""
    # no special register among them
    letters, name = string.ascii_letters.replace("r", "_"), ""
    while True:
        number, last = divmod(number, len(letters))
        name = letters[last] + name
        if number == 0:
            return name
        number -= 1


# images

def segments(rows, data=END_WORD, entry=0):
    """An image of program headers: kind, address, size in the file and in memory, flags; the bytes of all begin at one place."""
    place = 52 + 32 * len(rows)
    header = b"\x7fELF\1\2\1" + bytes(9) + struct.pack(">HHIIIIIHHHHHH", 2, elf.MACHINE, 1, entry, 52, 0, 0, 52, 32, len(rows), 0, 0, 0)
    return header + b"".join(struct.pack(">8I", kind, place, address, address, size, room, flags, 1)
                             for kind, address, size, room, flags in rows) + data


def big_image(size, flags):
    """An image file of so many bytes with one segment."""
    return segments([(1, 0, size - 84, size - 84, flags)], END_WORD * ((size - 84) // 4), 0)


ONE_CORE = 'version = 1\ncore.a = {image = "image", pipeline = "plain", memory = %d}\n' % MEMORY


def image_cases():
    run = {"board.toml": ONE_CORE.encode()}
    scattered = [(k * 32_771) % HEADERS for k in range(HEADERS)]
    rows = [
        ("none of them to load", lambda: segments([(0, 0, 0, 0, 0)] * HEADERS), 7, "708 at 0"),
        ("none of them with memory", lambda: segments([(1, 0, 0, 0, 5)] * HEADERS), 7, "708 at 0"),
        ("of a word each, in order", lambda: segments([(1, 4 * k, 4, 4, 5) for k in range(HEADERS)]), 0, ""),
        ("of a word each, in reverse", lambda: segments([(1, 4 * (HEADERS - 1 - k), 4, 4, 5) for k in range(HEADERS)]), 0, ""),
        ("of a word each, scattered", lambda: segments([(1, 4 * place, 4, 4, 5) for place in scattered]), 0, ""),
        ("at one place", lambda: segments([(1, 0, 4, 4, 5)] * HEADERS), 7, "711 at 1"),
        ("whose last shares with the first", lambda: segments([(1, 4 * k, 4, 4, 5) for k in range(HEADERS - 1)] + [(1, 0, 4, 4, 5)]), 7,
         f"711 at {HEADERS - 1}"),
        ("whose last is too long in the file", lambda: segments([(1, 4 * k, 4, 4, 5) for k in range(HEADERS - 1)] + [(1, 0, 5, 4, 5)]), 7,
         f"710 at {HEADERS - 1}"),
        ("and an entry in none", lambda: segments([(1, 4 * k, 4, 4, 5) for k in range(HEADERS)], entry=MEMORY - 4), 7, f"712 at {MEMORY - 4}"),
    ]
    for name, image, status, fault in rows:
        for words, core in (("run board.toml --cycles 5", "a"), ("dis image", "image")):
            line = f"image of {core} {fault}" if status else ""
            yield Case(f"{words.split()[0]}: 65,535 program headers, {name}", words, {**run, "image": image}, status, line)
    for words, core in (("run board.toml --cycles 5", "a"), ("dis image", "image")):
        name = words.split()[0]
        yield Case(f"{name}: 128 MiB that are no image", words, {**run, "image": lambda: bytes(IMAGE)}, 7, f"image of {core} 701 at 0", 128)
        yield Case(f"{name}: a byte more than 128 MiB", words, {**run, "image": lambda: bytes(IMAGE + 1)}, 15, "image is too long", 128)
    shared = END_WORD * 16_384
    yield Case("run: 65,535 program headers that load the same 64 KiB to one place", "run board.toml --cycles 5",
               {**run, "image": lambda: segments([(1, 0, 65_536, 65_536, 5)] * HEADERS, shared)}, 7, "image of a 711 at 1")
    yield Case("dis: 65,535 program headers that load the same 64 KiB to one place", "dis image",
               {"image": lambda: segments([(1, 0, 65_536, 65_536, 5)] * HEADERS, shared)}, 7, "image of image 711 at 1")
    yield Case("dis: 65,535 program headers that load the same 64 KiB of data", "dis image",
               {"image": lambda: segments([(1, 65_536 * k, 65_536, 65_536, 6) for k in range(HEADERS)], shared)})
    yield Case("run: 64 MiB to load", "run board.toml --cycles 5", {**run, "image": lambda: big_image(MEMORY + 84, 5)}, 0, "", 128)
    cores = numbered("version = 1\n", lambda k: f"core.c{k} = {{image = 'image', pipeline = 'plain', memory = {MEMORY}}}", BOARD, count=16)
    yield Case("run: 64 MiB to load at each of 16 cores", "run board.toml --cycles 5",
               {"board.toml": cores, "image": lambda: big_image(MEMORY + 84, 5)}, 0, "", 1088)
    yield Case("dis: 128 MiB of data", "dis image", {"image": lambda: big_image(IMAGE, 6)}, 0, "", 128)
    yield Case("dis: 4 MiB of code", "dis image", {"image": lambda: big_image(4 << 20, 5)})
    yield Case("dis: 128 MiB of code", "dis image", {"image": lambda: big_image(IMAGE, 5)}, 0, "", 128)


# board files

def wide_board(version):
    """A lawful board with all that a board of this version can have, under the longest names."""
    def name(kind, number):
        return f"{kind}_{number:0{23 - len(kind)}d}"

    def file(kind, number):
        return f"{kind}{number:0{64 - len(kind)}d}"

    lines, cores, links = [f"version = {version}"], *((16, 64) if version == 1 else (64, 256))
    clock = ", clock = 1000000" if version == 2 else ""
    for k in range(cores):
        lines.append(f'core.{name("core", k)} = {{image = "image", pipeline = "eight", memory = 4096}}')
        lines.append(f'intc.{name("intc", k)} = {{core = "{name("core", k)}", base = 0x41200000{clock}}}')
    for k in range(links):
        core = name("core", k % cores)
        lines.append(f'link.{name("link", k)} = {{depth = 4096, from = "{core}", from_port = {k // cores}, to_file = "{file("link", k)}"}}')
    for k in range(64):
        core = name("core", k % 16)
        lines.append(f'timer.{name("timer", k)} = {{core = "{core}", base = {0x41C00000 + 4096 * k}, irq = {k // 16}{clock}}}')
        lines.append(f'uart.{name("uart", k)} = {{core = "{core}", base = {0x42C00000 + 4096 * k}, irq = {8 + k // 16}, output = "{file("uart", k)}"{clock}}}')
    for k in range(256):
        lines.append(f'event.{name("event", k)} = {{core = "{name("core", k % cores)}", cycle = {k}, kind = "nonmaskable"}}')
    return "\n".join(lines).encode() + b"\n"


def board_cases():
    def case(name, text, line):
        return Case(f"board: {name}", "run board.toml --cycles 5", {"board.toml": text, "image": segments([(1, 0, 4, 4, 5)])}, 6 if line else 0,
                    f"board {line}" if line else "")

    def many(name, table, form, line):
        """Rows of one kind, as many as fit."""
        return case(name, lambda: numbered(f"{core}[{table}]\n", lambda k: f"{k}={{{form(k)}}}", BOARD, first=10_000), line)

    head = "version = 1\n"
    core = head + 'core.a = {image = "i", pipeline = "plain"}\n'
    yield Case("board: a byte more than 1 MiB", "run board.toml", {"board.toml": lambda: b"[" * (BOARD + 1)}, 15, "board.toml is too long")
    for piece in ("[", "[[", "a.", "a={", "a=[", '"', "'", "\\", "a=[[],", "{a=", "[a]"):
        yield case(f"1 MiB of `{piece}`", lambda piece=piece: filled(b"", piece.encode(), BOARD), "601 at ")
    for name, piece in (("line ends", b"\n"), ("spaces", b" "), ("comments", b"# x\n"), ("one comment", b"#")):
        yield case(f"1 MiB of {name}", lambda piece=piece: filled(b"", piece, BOARD), "602 at version")
    yield case("1 MiB of digits", lambda: filled(b"a=", b"7", BOARD), "601 at ")
    yield case("1 MiB of digits behind a point", lambda: filled(b"version = 1\na=0.", b"7", BOARD), "603 at a")
    yield case("1 MiB of zeros of a hexadecimal number", lambda: filled(b"version = 1\na=0x", b"0", BOARD), "603 at a")
    yield case("1 MiB of digits with underscores", lambda: filled(b"a=1", b"_1", BOARD - 1), "601 at ")
    yield case("a string of 1 MiB", lambda: filled(b'version = 1\na="', b"x", BOARD - 1) + b'"', "603 at a")
    yield case("a string of 1 MiB of escapes", lambda: filled(b'version = 1\na="', b"\\U0010FFFF", BOARD // 10 * 10 - 55) + b'"', "603 at a")
    yield case("a long string of quotes", lambda: filled(b'version = 1\na="""', b'""x', BOARD - 4) + b'"""', "603 at a")
    yield case("a key of 1 MiB", lambda: filled(b'version = 1\n', b"k", BOARD - 4) + b"=1\n", f"603 at {'k' * 64}")
    yield case("no UTF-8 at the end", lambda: filled(b"", b"# x\n", BOARD - 1) + b"\xff", "601 at ")
    yield case("116,000 unknown keys", lambda: numbered(core, lambda k: f"k{k}=0", BOARD), "603 at k0")
    yield case("116,000 unknown keys of a core", lambda: numbered(core + "[core.b]\n", lambda k: f"k{k}=0", BOARD), "603 at core.b.k0")
    yield case("96,000 tables", lambda: numbered(core, lambda k: f"[k{k}.a]", BOARD), "603 at k0")
    yield case("80 tables in one another, 6,300 times", lambda: numbered(core, lambda k: f"[k{k}{'.a' * 79}]", BOARD), "603 at k0")
    yield case("keys of 80 parts, 6,300 times", lambda: numbered(core, lambda k: f"k{k}{'.a' * 79}=1", BOARD), "603 at k0")
    yield case("6,300 keys of 80 parts that share all but the last", lambda: numbered(core, lambda k: f"{'a.' * 79}k{k}=1", BOARD), "603 at a")
    yield case("80 lists in one another, 6,300 times", lambda: numbered(core, lambda k: f"k{k}={'[' * 80}{']' * 80}", BOARD), "603 at k0")
    yield case("80 inline tables in one another, 3,200 times", lambda: numbered(core, lambda k: f"k{k}={'{a=' * 80}1{'}' * 80}", BOARD), "603 at k0")
    yield case("a list of 524,000 numbers", lambda: filled(b"version = 1\na=[", b"1,", BOARD // 2 * 2 - 1) + b"]", "603 at a")
    yield case("a list of 350,000 strings", lambda: filled(b"version = 1\na=[", b'"",', BOARD // 3 * 3 - 1) + b"]", "603 at a")
    yield case("a list of 350,000 inline tables", lambda: filled(b"version = 1\na=[", b"{},", BOARD // 3 * 3 - 1) + b"]", "603 at a")
    yield case("a list of 175,000 tables", lambda: filled(b"version = 1\n", b"[[a]]\n", BOARD // 6 * 6), "603 at a")
    yield case("a list of 87,000 tables with a table each", lambda: filled(b"version = 1\n", b"[[a]]\n[a.b]\n", BOARD // 12 * 12), "603 at a")
    yield case("30,000 cores", lambda: numbered(head + "[core]\n", lambda k: f"{k}={{image='i',pipeline='plain'}}", BOARD), "615 at core")
    yield many("36,000 links that use one port", "link", lambda k: "from='a',from_port=0", "609 at link.10001.from_port")
    yield many("29,000 links with two ends that are files", "link", lambda k: f"to_file='{short_name(k)}',from_file='.'", "610 at link.10000")
    yield many("48,000 links with an output each", "link", lambda k: f"to_file='{short_name(k)}'", "610 at link.10000")
    yield many("52,000 links with one output", "link", lambda k: "to_file='o'", "607 at link.10001.to_file")
    yield many("24,000 UARTs with an output each", "uart", lambda k: f"core='a',base={4096 * k},output='{short_name(k)}'", "606 at uart")
    yield many("33,000 timers with a place each", "timer", lambda k: f"core='a',base={4096 * k}", "606 at timer")
    yield many("28,000 timers with one number", "timer", lambda k: f"core='a',irq=9,base={4096 * k}", "604 at timer.10000.irq")
    yield many("33,000 controllers on a core", "intc", lambda k: f"core='a',base={4096 * k}", "614 at intc.10001.core")
    yield many("28,000 events", "event", lambda k: "core='a',cycle=1,kind='break'", "606 at event")
    for version, room in ((1, 16), (2, 64)):
        yield Case(f"board: all rows that a board of version {version} can have, under the longest names", "run board.toml --cycles 5",
                   {"board.toml": lambda version=version: wide_board(version), "image": segments([(1, 0, 4, 4, 5)])}, 3, "", room)
    cores = numbered(head, lambda k: f"core.c{k} = {{image = 'image', pipeline = 'plain', memory = {MEMORY}}}", BOARD, count=16)
    second = "version = 2\n"
    for count, form, line in ((17, "core.c{0} = {{image = 'image', pipeline = 'plain'}}", ""),
                              (65, "core.c{0} = {{image = 'image', pipeline = 'plain'}}", "615 at core"),
                              (17, f"core.c{{0}} = {{{{image = 'image', pipeline = 'plain', memory = {MEMORY}}}}}", "619 at core")):
        yield case(f"{count} cores in version 2{', of 64 MiB each' if 'memory' in form else ''}", numbered(second, lambda k, form=form: form.format(k), BOARD, count=count), line)
    yield Case("board: 16 cores of 64 MiB", "run board.toml --cycles 5", {"image": segments([(1, 0, 4, 4, 5)]), "board.toml": cores}, 0, "", 1024)


# inputs

def input_cases():
    image = segments([(1, 0, 4, 4, 5)])
    cores = "version = 1\n" + "".join(f"core.c{k} = {{image = 'image', pipeline = 'plain'}}\n" for k in range(4))
    links = numbered(cores, lambda k: f"link.l{k} = {{from_file = 'in', to = 'c{k % 4}', to_port = {k // 4}}}", BOARD, count=64)
    uarts = numbered(cores, lambda k: f"uart.u{k} = {{core = 'c{k % 4}', base = {0x40000000 + 4096 * k}, input = 'in', output = 'out{k}'}}", BOARD, count=64)
    link = numbered(ONE_CORE, lambda k: f"link.l{k} = {{from_file = 'in', to = 'a', to_port = {k}}}", BOARD, count=1)
    uart = (ONE_CORE + "uart.u = {core = 'a', base = 0x40000000, output = 'out', input = 'in'}\n").encode()
    whole = bytes(INPUT // 5 * 5)

    def case(name, text, given, status, line="", asked=0):
        return Case(f"input: {name}", "run board.toml --cycles 5", {"board.toml": text, "image": image, "in": given}, status, line, asked)

    yield case("4 MiB of items, the last cut", link, bytes(INPUT), 13, f"input in at {INPUT // 5 * 5}")
    yield case("4 MiB of items", link, whole, 3)
    yield case("4 MiB of items at each of 64 links", links, whole, 3, "", 256)
    yield case("4 MiB of bytes for a UART", uart, bytes(INPUT), 3)
    yield case("4 MiB of bytes for each of 64 UARTs", uarts, bytes(INPUT), 3, "", 256)
    yield case("a byte more than 4 MiB", link, bytes(INPUT + 1), 15, "in is too long")
    yield Case("raw: a byte more than 64 KiB", "raw image 5", {"image": bytes(65_537)}, 15, "image is too long")
    yield Case("journal: room for 33,554,432 entries", "run board.toml --cycles 5 --journal 33554432",
               {"board.toml": ONE_CORE.encode(), "image": image}, 0, "", 1152)


# sources

def falling_branches():
    """Branches that grow two a turn, from the last to the first: each reaches just so far that it fits until those that it passes
    have grown."""
    count, reach = 120_000, 4096
    lines = []
    for k in range(count):
        left = count - 1 - k
        target = f"a{k + 1 + reach}" if left > reach else f"z{max(0, 8191 - 2 * left)}"
        lines.append(f"a{k}:bri {target}")
    lines += [f"z{k}:nop" for k in range(8192)]
    return "\n".join(lines).encode()


def source_cases():
    def case(name, text, line=""):
        return Case(f"source: {name}", "asm source out", {"source": text}, 11 if line else 0, f"source {line}" if line else "")

    def twenty(k):
        """The labels of a line, as many as a line may have."""
        return "".join(f"{short_name(20 * k + j)}:" for j in range(20))

    def parts(place, count):
        return numbered("", lambda k: f".org {place(k)}\n.byte 0", SOURCE, count=count)

    yield Case("source: a byte more than 4 MiB", "asm source out", {"source": lambda: bytes(SOURCE + 1)}, 15, "source is too long")
    yield case("4 MiB of labels", lambda: numbered("", twenty, SOURCE))
    yield case("4 MiB of labels, each twice", lambda: numbered("", lambda k: twenty(k // 2), SOURCE), "1105 at 2:1")
    yield case("1 MiB of labels", lambda: numbered("", twenty, 1 << 20))
    yield case("4 MiB of labels that begin alike", lambda: numbered("", lambda k: f"{'a' * 500}{k:07d}:", SOURCE))
    yield case("a label of 4 MiB", lambda: filled(b"", b"a", SOURCE - 1) + b":")
    yield case("262,144 labels, each asked for", lambda: numbered("", lambda k: f"{short_name(k)}:.word {short_name(k)}", SOURCE, count=262_144))
    yield case("4 MiB of labels that aren't there", lambda: numbered("", lambda k: f"bri {short_name(k)}", SOURCE), "1104 at 1:5")
    yield case("4 MiB of `.entry`", lambda: filled(b"a:\n", b".entry a\n", (SOURCE - 3) // 9 * 9 + 3))
    yield case("4 MiB of line ends", lambda: filled(b"", b"\n", SOURCE))
    yield case("4 MiB of spaces", lambda: filled(b"", b" ", SOURCE))
    yield case("a comment of 4 MiB", lambda: filled(b"", b"#", SOURCE))
    yield case("4 MiB of `@`", lambda: filled(b"", b"@", SOURCE), "1110 at 1:1")
    yield case("4 MiB of lines with `@`", lambda: filled(b"", b"@\n", SOURCE), "1110 at 1:1")
    yield case("4 MiB of digits", lambda: filled(b"", b"7", SOURCE), "1109 at 1:1")
    yield case("4 MiB of commas", lambda: filled(b"", b",", SOURCE), "1101 at 1:1")
    yield case("a name of 4 MiB", lambda: filled(b"", b"a", SOURCE), "1101 at 1:1")
    yield case("4 MiB of unknown mnemonics", lambda: filled(b"", b"x\n", SOURCE), "1101 at 1:1")
    yield case("4 MiB of unknown directives", lambda: filled(b"", b".x\n", SOURCE), "1108 at 1:1")
    yield case("4 MiB of instructions with no operands", lambda: filled(b"", b"br\n", SOURCE // 3 * 3), "1102 at 1:1")
    yield case("262,144 instructions", lambda: b"nop\n" * 262_144)
    yield case("1,048,576 instructions", lambda: b"nop\n" * 1_048_576, "1112 at 262145:1")
    yield case("131,072 instructions with a prefix", lambda: b"addik r3, r3, 32768\n" * 131_072)
    yield case("262,144 link instructions with all letters", lambda: b"tnecagetd r1,r2\n" * 262_144)
    yield case("262,144 instructions of the last row", lambda: b"swi r1,r1,1\n" * 262_144)
    yield case("52,428 lines of 40 tokens", lambda: filled(b"", b".byte 0" + b",0" * 19 + b"\n", 1_048_560 // 20 * 46))
    yield case("a text of 1,048,576 bytes", lambda: b'.ascii "' + b"x" * BYTES + b'"\n')
    yield case("a text of escapes", lambda: b'.ascii "' + b"\\n" * BYTES + b'"\n')
    yield case("a text of 4 MiB that isn't closed", lambda: filled(b'.ascii "', b"x", SOURCE), "1109 at 1:8")
    yield case("65,534 parts, in order", lambda: parts(lambda k: 4 * k, PARTS))
    yield case("65,534 parts, in reverse", lambda: parts(lambda k: 4 * (PARTS - k), PARTS))
    yield case("65,535 parts", lambda: parts(lambda k: 4 * k, PARTS + 1), f"1112 at {2 * PARTS + 1}:1")
    yield case("65,534 parts, the last of which shares with the first", lambda: parts(lambda k: 4 * k % (4 * PARTS - 4), PARTS),
               f"1111 at {2 * PARTS - 1}:1")
    yield case("344,000 parts without bytes", lambda: numbered("", lambda k: f".org {4 * k}", SOURCE))
    yield case("120,000 branches that grow two a turn", falling_branches)


def with_symbols(count):
    """An image of one word with so many symbols, the last of which alone is `z`."""
    image, names = elf.write(elf.Image("big", 0, [elf.Part(0, END_WORD)])), b"\0y\0z\0"
    table = struct.pack(">IIIBBH", 1, 0, 0, 0, 0, 0) * (count - 1) + struct.pack(">IIIBBH", 3, 4, 0, 0, 0, 0)
    place = len(image)
    sections = bytes(40) + struct.pack(">10I", 0, 2, 0, 0, place, len(table), 2, 0, 4, 16)
    sections += struct.pack(">10I", 0, 3, 0, 0, place + len(table), len(names), 0, 0, 1, 0)
    head = image[:32] + struct.pack(">I", place + len(table) + len(names)) + image[36:46] + struct.pack(">HHH", 40, 3, 0) + image[52:]
    return head + table + names + sections


SCRIPT = "script"


def script_cases():
    board = b'version = 1\ncore.a = {image = "image", pipeline = "plain"}\n'
    loop = b'version = 1\ncore.a = {image = "loop", pipeline = "plain"}\n'
    loops = elf.write(elf.Image("big", 0, [elf.Part(0, elf.words([0x30630001, 0xB800FFFC]))]))
    image = elf.write(elf.Image("big", 0, [elf.Part(0, END_WORD)]))

    def case(name, script, line="", image=image, text=board, words="", asked=0, status=None):
        status = (12 if line else 0) if status is None else status
        files = {"board.toml": text, "image": image, "loop": loops, SCRIPT: script}
        return Case(f"script: {name}", f"debug board.toml {words}", files, status, line, asked)

    yield case("1 MiB of line ends", b"\n" * BOARD)
    yield case("a byte more", b"\n" * (BOARD + 1), "script is too long", status=15)
    yield case("one word", b"x" * BOARD, "script 1201 at line 1")
    yield case("one line of a million words", filled(b"list", b" ", BOARD), "script 1202 at line 1")
    yield case("209,715 times list", b"list\n" * (BOARD // 5))
    yield case("80,659 times mem of 4,096 bytes", b"mem a 0 4096\n" * (BOARD // 13))
    yield case("87,381 times probe trace", b"probe trace\n" * (BOARD // 12), text=loop)
    yield case("131,072 steps of 0", b"step 0\n" * (BOARD // 7), text=loop)
    yield case("95,325 breakpoints", b"break a 04\n" * (BOARD // 11), "script 1206 at line 65")
    yield case("a million cycles with 64 breakpoints", b"break a 8\n" * 64 + b"run 1000000\n", text=loop)
    # the bytes of the file twice, once beside the symbols
    yield case("64 breakpoints at the last of a million symbols", b"break a z\n" * 64, image=lambda: with_symbols(10**6), asked=32)
    yield case("104,857 bytes at the last of 100,000 symbols", b"mem a z 1\n" * (BOARD // 10), image=lambda: with_symbols(100_000))
    yield case("a symbol that isn't there, of a million", b"break a x\n", "script 1204 at line 1", image=lambda: with_symbols(10**6), asked=32)


def word_cases():
    yield Case("words: one of 100,000 letters", "run " + "x" * 100_000, {}, 4, "usage")
    yield Case("words: 20,000 of them", "run " + "x " * 20_000, {}, 4, "usage")
    yield Case("words: 20,000 options", "run board.toml " + "--cycles=1 " * 20_000, {}, 4, "usage")
    yield Case("demo: 16 cores", "demo 999989", {})


def cases():
    yield from board_cases()
    yield from image_cases()
    yield from input_cases()
    yield from source_cases()
    yield from script_cases()
    yield from word_cases()
