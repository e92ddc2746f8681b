"""A whole board, plain and slow: board file, images and inputs to output files, journal and report.

Written from what a board is, apart from the proved program. A cycle is a step of the devices (breaks become pending, then
the timers, UARTs and controllers whose turn it is move, then lines are latched), a move of the host at each link with a file, and a tick of each
core that is due.

    python3 model/board.py run BOARD [--cycles N] [--journal N] [--write-journal FILE]
    python3 model/board.py profile BOARD [--cycles N] [--journal N]

does what the program does, only slower.
"""
import collections
import dataclasses
import pathlib
import re
import sys

import board_rules
import core
import devices
import elf

CYCLES, ENTRIES = 10_000_000, 1_048_576
COUNTS = ("acted", "start", "hold", "operand", "redirect", "divide", "waiting", "sleeping", "done")
LIMITS = {"board": 1_048_576, "image": 134_217_728, "input": 4_194_304}


class Refused(Exception):
    """The call ends before the run: the status, and what stands on the standard error."""

    def __init__(self, status, line):
        super().__init__(status, line)
        self.status, self.line = status, line


@dataclasses.dataclass
class Outcome:
    """What a call leaves: the files that it wrote stand in `files`."""
    status: int
    out: str = ""
    err: str = ""
    files: dict = dataclasses.field(default_factory=dict)


class Link:
    def __init__(self, name, depth, given=None, to_file=None):
        self.name, self.depth, self.to_file = name, depth, to_file
        self.given = None if given is None else collections.deque(given)
        self.items, self.left = collections.deque(), []
        self.sent = self.taken = 0

    def has_room(self):
        return len(self.items) < self.depth

    def put(self, item):
        self.items.append(item)
        self.sent += 1

    def take(self):
        self.taken += 1
        return self.items.popleft()

    def can_move(self):
        """Whether the host can move an item."""
        return bool(self.given and self.has_room() or self.to_file is not None and self.items)


class Ports:
    """What a core stands in. A port that isn't connected is always empty and always full. `line` is the latched line."""

    def __init__(self):
        self.gets, self.puts, self.bus = {}, {}, devices.Bus()
        self.pending, self.coming = set(), set()
        self.line = False

    @property
    def hopes(self):
        """The kinds of takes that are pending or may still come."""
        return self.pending | self.coming | ({"interrupt"} if self.bus.controller else set())

    def first(self, port):
        link = self.gets.get(port)
        return link.items[0] if link and link.items else None

    def room(self, port):
        return port in self.puts and self.puts[port].has_room()

    def take(self, port):
        return self.gets[port].take()

    def put(self, port, item):
        self.puts[port].put(item)

    def took(self, kind):
        self.pending.discard(kind)

    def read(self, addr):
        return self.bus.access(addr)

    def write(self, addr, word):
        return self.bus.access(addr, word)


class Board:
    """All lists are in board order; a core is its name, its clock, itself and its ports."""

    def __init__(self, cores, links, events, order="ascending", timers=(), uarts=(), controllers=()):
        self.cores, self.links, self.order = cores, links, order
        self.timers, self.uarts, self.controllers = timers, uarts, controllers
        self.events = list(events)  # (core's ports, cycle, kind)
        self.cycle, self.journal = 0, []
        self.acts, self.waits = [0] * len(cores), [False] * len(cores)
        self.profiles = [dict.fromkeys(COUNTS, 0) for _ in cores]
        self.need = 5 * len(cores) + len(links) + len(uarts)
        self.tell_what_comes()

    def tell_what_comes(self):
        for _, _, _, ports in self.cores:
            ports.coming = {kind for whose, _, kind in self.events if whose is ports}

    def enter(self, who, act, what):
        self.journal.append(f"{self.cycle} {who} {act} {what}\n")

    def devices(self):
        self.give_breaks()
        for timer in self.timers:
            if timer.is_due(self.cycle):
                timer.cycle()
        for uart in self.uarts:
            byte = uart.cycle(self.cycle)
            if byte is not None:
                self.enter("-", 0, f"left {uart.name} {byte:02X}")
        for controller in self.controllers:
            if controller.is_due(self.cycle):
                controller.cycle()
        self.latch()

    def latch(self):
        """Each core's line, as its ticks see it."""
        for (name, _, _, ports), acts in zip(self.cores, self.acts):
            line = ports.bus.line
            if line != ports.line:
                self.enter(name, acts, "lineup" if line else "linedown")
            ports.line = line

    def give_breaks(self):
        given = [event for event in self.events if event[1] <= self.cycle]
        if given:
            self.events = [event for event in self.events if event[1] > self.cycle]
            for ports, _, kind in given:
                ports.pending.add(kind)
            self.tell_what_comes()

    def host(self):
        for link in self.links:
            if link.given and link.has_room():
                control, word = item = link.given.popleft()
                link.put(item)
                self.enter("-", 0, f"hostsent {link.name} {control} {word:08X}")
            elif link.to_file is not None and link.items:
                control, word = item = link.take()
                link.left.append(item)
                self.enter("-", 0, f"hostgot {link.name} {control} {word:08X}")

    def turns(self):
        """The numbers of the cores in the order of this cycle."""
        count = len(self.cores)
        if self.order == "descending":
            return range(count - 1, -1, -1)
        first = self.cycle % count if self.order == "rotating" else 0
        return [(first + k) % count for k in range(count)]

    def tick(self, number):
        name, _, one, ports = self.cores[number]
        acted, told = one.tick(ports)
        self.profiles[number][one.spent] += 1
        for what in told if acted or not self.waits[number] else ():
            self.enter(name, self.acts[number], what)
        self.waits[number] = not acted and (self.waits[number] or bool(told))
        self.acts[number] += acted

    def do_cycle(self):
        self.devices()
        self.host()
        for number in self.turns():
            if self.cycle % self.cores[number][1] == 0:
                self.tick(number)
        self.cycle += 1

    def still(self):
        """The status of a board at rest, or None."""
        if self.events or any(link.can_move() for link in self.links) or not all(uart.is_done() for uart in self.uarts):
            return None
        idle = [one.idle(ports) for _, _, one, ports in self.cores]
        if None in idle:
            return None
        return 2 if any(one.startswith("stopped") for one in idle) else 1 if any(one.startswith("waits") for one in idle) else 0

    def run(self, limit=CYCLES, entries=ENTRIES):
        """The status with which the run ends."""
        while True:
            rest = self.still()
            if rest is not None:
                return rest
            if self.cycle == limit:
                return 3
            if entries - len(self.journal) < self.need:
                return 10
            self.do_cycle()

    def report(self, status):
        lines = [f"status {status} cycles {self.cycle} entries {len(self.journal)}"]
        for (name, _, one, ports), acts in zip(self.cores, self.acts):
            lines.append(f"core {name} {one.idle(ports) or 'runs'} pc {one.pc:08X} acts {acts}")
        lines += [f"link {link.name} sent {link.sent} taken {link.taken}" for link in self.links]
        lines += [f"uart {uart.name} left {len(uart.left)}" for uart in self.uarts]
        return "".join(line + "\n" for line in lines)

    def profile(self):
        """What the ticks of each core were spent on; each tick was counted once."""
        for (_, _, one, _), counts in zip(self.cores, self.profiles):
            assert sum(counts.values()) == one.ticks
        return "".join(f"profile {name} " + " ".join(f"{what} {counts[what]}" for what in COUNTS) + "\n"
                       for (name, _, _, _), counts in zip(self.cores, self.profiles))


# files

def load(folder, name, limit):
    path = pathlib.Path(folder, name)
    if not path.is_file():
        raise Refused(5, f"cannot read {name}")
    data = path.read_bytes()
    if len(data) > limit:
        raise Refused(15, f"{name} is too long")
    return data


def items_of(data, name):
    """The items of an input file: five bytes each, the control bit first."""
    for place in range(0, len(data), 5):
        if place + 5 > len(data) or data[place] > 1:
            raise Refused(13, f"input {name} at {place}")
    return [(data[k], int.from_bytes(data[k + 1:k + 5], "big")) for k in range(0, len(data), 5)]


def bytes_of(items):
    return b"".join(bytes([control]) + word.to_bytes(4, "big") for control, word in items)


def rows(file, table):
    """The tables of one kind with their names, in board order."""
    return sorted(file.get(table, {}).items())


FILE_KEYS = (("core", "image"), ("link", "from_file"), ("link", "to_file"), ("uart", "input"), ("uart", "output"))


def file_names(file):
    """Every image, input and output of a board."""
    return {row[key] for table, key in FILE_KEYS for _, row in rows(file, table) if key in row}


def view(data, name, row, network):
    """A core as its image starts it."""
    size = row.get("memory", 65_536)
    try:
        image = elf.read(data, size)
    except elf.Refused as refused:
        raise Refused(7, f"image of {name} {refused.code} at {refused.at}") from None
    memory = bytearray(size)
    for part in image.parts:
        memory[part.address:part.address + len(part.data)] = part.data
    return core.Core(memory, image.entry, image.order, network, row["pipeline"])


def build_links(file, folder, by_name):
    """The links, joined to the ports of their cores."""
    links = []
    for name, row in rows(file, "link"):
        given = row.get("from_file")
        link = Link(name, row.get("depth", 16), given and items_of(load(folder, given, LIMITS["input"]), given), row.get("to_file"))
        links.append(link)
        if "from" in row:
            by_name[row["from"]].puts[row["from_port"]] = link
        if "to" in row:
            by_name[row["to"]].gets[row["to_port"]] = link
    return links


def build_uart(name, row, folder):
    given = load(folder, row["input"], LIMITS["input"]) if "input" in row else b""
    return devices.Uart(name, row.get("every", 64), given)


def build_devices(file, folder, by_name):
    """Timers, UARTs and controllers, each in the window of its core's bus and with its clock; the controllers have their inputs."""
    found = {"timer": [(row, devices.Timer()) for _, row in rows(file, "timer")],
             "uart": [(row, build_uart(name, row, folder)) for name, row in rows(file, "uart")]}
    found["intc"] = [(row, devices.Controller([(other["irq"], device) for other, device in found["timer"] + found["uart"]
                                               if other["core"] == row["core"] and "irq" in other])) for _, row in rows(file, "intc")]
    for row, device in found["timer"] + found["uart"] + found["intc"]:
        device.clock = row.get("clock", 1)
        by_name[row["core"]].bus.windows[row["base"]] = device
    for row, device in found["intc"]:
        by_name[row["core"]].bus.controller = device
    return [[device for _, device in found[kind]] for kind in ("timer", "uart", "intc")]


def build(file, folder):
    """The board of a file; images, inputs of links and inputs of UARTs are read in board order."""
    cores = [(name, row.get("clock", 1), view(load(folder, row["image"], LIMITS["image"]), name, row, file.get("network", False)), Ports())
             for name, row in rows(file, "core")]
    by_name = {name: ports for name, _, _, ports in cores}
    links = build_links(file, folder, by_name)
    events = [(by_name[row["core"]], row["cycle"], row["kind"]) for _, row in rows(file, "event")]
    return Board(cores, links, events, file.get("order", "ascending"), *build_devices(file, folder, by_name))


def run(folder, name, cycles=CYCLES, entries=ENTRIES, journal=None, profiled=False):
    """What `mbsim run` of a board file comes to, or `mbsim profile`, which has no files; nothing is written."""
    try:
        fault, file = board_rules.least_fault(load(folder, name, LIMITS["board"]))
        if fault:
            raise Refused(6, f"board {fault[0]} at {fault[1].decode(errors='replace')}")
        if journal in file_names(file):
            raise Refused(4, "usage")
        board = build(file, folder)
    except Refused as refused:
        return Outcome(refused.status, err=f"mbsim: {refused.line}\n")
    status = board.run(cycles, entries)
    if profiled:
        return Outcome(status, board.report(status) + board.profile())
    files = {link.to_file: bytes_of(link.left) for link in board.links if link.to_file is not None}
    files |= {row["output"]: bytes(uart.left) for (_, row), uart in zip(rows(file, "uart"), board.uarts)}
    if journal:
        files[journal] = "".join(board.journal).encode()
    return Outcome(status, board.report(status), files=files)


def raw(image, limit=CYCLES, entries=ENTRIES):
    """The board of `mbsim raw`: a core over a flat image, and put port 0 to the output."""
    ports, out = Ports(), Link("out", 16, to_file="")
    ports.puts[0] = out
    memory = bytearray(image) + bytearray(65_536 - len(image))
    board = Board([("raw", 1, core.Core(memory), ports)], [out], [])
    status = board.run(limit, entries)
    return status, "".join(f"{control} {word:08X}\n" for control, word in out.left), board


# the command line

FILE_NAME = re.compile(r"[A-Za-z0-9_./][A-Za-z0-9_./-]{0,63}")
OPTIONS = {"run": ("cycles", "journal", "write-journal"), "profile": ("cycles", "journal"), "debug": ("cycles", "journal")}
MOST = {"cycles": 1_000_000_000_000, "journal": 33_554_432}


def value_of(name, value):
    """The value of an option, or of the one other word."""
    if name in MOST:
        lawful = re.fullmatch("[0-9]{1,19}", value) and int(value) <= MOST[name]
        value = int(value) if lawful else None
    else:
        lawful = FILE_NAME.fullmatch(value)
    if not lawful:
        raise Refused(4, "usage")
    return value


def read_words(words):
    """The options and the board of `run` and `profile`."""
    found, plain, rest = {}, [], list(words[1:])
    options = OPTIONS.get(words[0], ()) if words else ()
    while options and rest:
        word = rest.pop(0)
        if word == "--" or not word.startswith("-"):
            plain += rest if word == "--" else [word]
            rest = [] if word == "--" else rest
            continue
        name, equals, value = word[2:].partition("=")
        if not word.startswith("--") or name not in options or name in found or not (equals or rest):
            raise Refused(4, "usage")
        found[name] = value_of(name, value if equals else rest.pop(0))
    if len(plain) != 1:
        raise Refused(4, "usage")
    return value_of("board", plain[0]), found


def call(folder, words):
    """What the words come to, in a folder: the outcome of `mbsim`, with nothing written."""
    try:
        name, found = read_words(words)
    except Refused as refused:
        return Outcome(refused.status, err=f"mbsim: {refused.line}\n")
    return run(folder, name, found.get("cycles", CYCLES), found.get("journal", ENTRIES), found.get("write-journal"), words[0] == "profile")


def main():
    done = call(".", sys.argv[1:])
    for name, data in done.files.items():
        pathlib.Path(name).write_bytes(data)
    print(done.out, end="")
    print(done.err, end="", file=sys.stderr)
    return done.status


if __name__ == "__main__":
    sys.exit(main())
