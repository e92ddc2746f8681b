"""What holds of every journal, read off its text: the link law, the take law and the progress bound.

Written from the three laws' words, apart from `board.py`: no board runs here. Only the take law needs the views of the cores,
and `core.Core` gives them, act by act, on ports that answer as the journal says.

    faults(file, images, journal, report)

answers the faults, of which a right journal has none: each is the law that is broken and what breaks it. `file` is a board
file as parsed, `images` the bytes of its image files by their names; journal and report are the texts that a run leaves.
Beside `link`, `take` and `progress` a fault is of `text` where lines are none of these, of `order` where a line stands at the
wrong place, and of `views` where an act of a core enters something else.
"""
import collections
import itertools
import pathlib
import re

import board
import board_rules
from instructions import BIP, EIP, IE

PACE = 64  # the ticks of an act, at most
TICKLESS = ("lineup", "linedown", "hostsent", "hostgot", "left")  # what no tick of a core enters
SILENT = TICKLESS + ("wait",)                                     # what no act of a core enters
WORD, PORT, ITEM = "[0-9A-F]{8}", "(?:1[0-5]|[0-9])", "[01] [0-9A-F]{8}"
KINDS = (f"got {PORT} {ITEM}", f"sent {PORT} {ITEM}", f"seen {PORT} {ITEM}", f"room {PORT}", f"(?:missed|wait) (?:get|put) {PORT}",
         f"(?:read|wrote|writerefused) {WORD} {WORD}", f"readrefused {WORD}", "took (?:interrupt|break|nonmaskable)", f"raised {WORD}",
         "slept", f"stopped (?:illegal|slot|ibus|dbus) {WORD}", "lineup", "linedown", f"host(?:sent|got) [^ ]+ {ITEM}",
         "left [^ ]+ [0-9A-F]{2}")
LINE = re.compile(f"([0-9]+) ([^ ]+) ([0-9]+) ({'|'.join(KINDS)})")
CORE_LINE = re.compile(r"^core ([^ ]+) (.*) pc [0-9A-F]{8} acts ([0-9]+)$", re.MULTILINE)
AT_A_PORT = ("got", "sent", "seen", "room", "missed", "wait")


class Entry:
    """A line of a journal. `item` is a control bit and a word as they stand there, `port` a number."""

    def __init__(self, cycle, who, act, what):
        self.cycle, self.who, self.act, self.what = int(cycle), who, int(act), what
        self.kind, *self.words = what.split()
        self.by_tick, self.of_act = self.kind not in TICKLESS, self.kind not in SILENT
        self.port = int(self.words[-1 if self.kind in ("missed", "wait") else 0]) if self.kind in AT_A_PORT else None
        self.item = tuple(self.words[1:])

    def __str__(self):
        return f"{self.cycle} {self.who} {self.act} {self.what}"


class Run:
    """A board file beside what a run of it left. All is by names; `cores` and `acts` stand in board order."""

    def __init__(self, file, journal, report):
        self.file, self.order = file, file.get("order", "ascending")
        lines = [(line, LINE.fullmatch(line)) for line in journal.splitlines()]
        self.entries = [Entry(*found.groups()) for _, found in lines if found]
        self.cores, self.links = dict(board.rows(file, "core")), dict(board.rows(file, "link"))
        self.clocks = {name: row.get("clock", 1) for name, row in self.cores.items()}
        self.places = {(way, row[way], row[way + "_port"]): name
                       for name, row in self.links.items() for way in ("from", "to") if way in row}
        self.faults = [("text", line) for line, found in lines if not found]
        self.faults += [("text", str(entry)) for entry in self.entries if not self.is_known(entry)]
        self.read_report(report)

    def read_report(self, report):
        first, ends = re.match("status [0-9]+ cycles ([0-9]+) ", report), CORE_LINE.findall(report)
        self.cycles = int(first[1]) if first else 0
        self.ends = {name: end for name, end, _ in ends}
        self.acts = {name: int(acts) for name, _, acts in ends}
        if not first or list(self.acts) != list(self.cores):
            self.refuse("text", "no report of this board", report)

    def is_known(self, entry):
        """Whether a core enters what a core does, and the host or a UART what they do."""
        if entry.kind in ("hostsent", "hostgot", "left"):
            table = "uart" if entry.kind == "left" else "link"
            return (entry.who, entry.act) == ("-", 0) and entry.words[0] in self.file.get(table, {})
        return entry.who in self.cores

    def refuse(self, law, why, about):
        self.faults.append((law, f"{why}: {about}"))

    def turns(self, cycle):
        """The cores that tick in a cycle, in the order of their turns."""
        names, first = list(self.cores), cycle % len(self.cores) if self.order == "rotating" else 0
        turned = names[::-1] if self.order == "descending" else names[first:] + names[:first]
        return [name for name in turned if cycle % self.clocks[name] == 0]

    def link_of(self, entry):
        """The link that an entry is about; None for a port that leads nowhere."""
        if entry.kind in ("hostsent", "hostgot"):
            return entry.words[0]
        putting = entry.kind in ("sent", "room") or entry.words[0] == "put"
        return self.places.get(("from" if putting else "to", entry.who, entry.port))


class Holds:
    """What the links hold after the entries that it was told: all that was put in, without as many first items as were taken."""

    def __init__(self, run):
        self.run = run
        self.put, self.taken = {name: [] for name in run.links}, dict.fromkeys(run.links, 0)

    def tell(self, entry):
        link = self.run.link_of(entry) if entry.kind in ("got", "sent", "hostsent", "hostgot") else None
        if link is not None and entry.kind in ("sent", "hostsent"):
            self.put[link].append(entry.item)
        elif link is not None:
            self.taken[link] += 1

    def length(self, link):
        return max(0, len(self.put[link]) - self.taken[link]) if link is not None else 0

    def first(self, link):
        return self.put[link][self.taken[link]] if self.length(link) else None

    def depth(self, link):
        return self.run.links[link].get("depth", 16) if link is not None else 0

    def is_shut(self, entry):
        """Whether the link of a get is empty, or that of a put full."""
        link = self.run.link_of(entry)
        return self.length(link) == (self.depth(link) if entry.words[0] == "put" else 0)


# the order of a journal, which the laws' words take for granted

def order_faults(run):
    """Cycles go up; in each stand first the devices and the host, then the ticks in the order of their turns. The acts of a
    core go up, and each tick is due by its clock."""
    last, acts = (0, 0), dict.fromkeys(run.cores, 0)
    for entry in run.entries:
        turns = run.turns(entry.cycle)
        if entry.by_tick and entry.who not in turns or entry.cycle >= run.cycles:
            run.refuse("order", "no tick", entry)
            continue
        place = entry.cycle, 1 + turns.index(entry.who) if entry.by_tick else 0
        if place < last or entry.act < acts.get(entry.who, 0):
            run.refuse("order", "too late", entry)
        last, acts[entry.who] = place, entry.act


# the link law

def link_faults(run):
    """That no link holds more than its depth follows: an item goes in only where there is room."""
    holds = Holds(run)
    for entry in run.entries:
        if entry.port is not None or entry.kind in ("hostsent", "hostgot"):
            link = run.link_of(entry)
            if entry.kind in ("got", "seen", "hostgot") and holds.first(link) != entry.item:
                run.refuse("link", f"the first item is {holds.first(link)}", entry)
            if entry.kind in ("sent", "room", "hostsent") and holds.length(link) >= holds.depth(link):
                run.refuse("link", "there is no room", entry)
            if entry.kind in ("missed", "wait") and not holds.is_shut(entry):
                run.refuse("link", "an item or room is there", entry)
            holds.tell(entry)


# the take law

class Untold(Exception):
    """An act asked for what the journal doesn't tell."""


class Told:
    """Ports that answer an act as its entries say. No take comes from them, but one could: so a core may act at its end."""
    pending, line, hopes = frozenset(), False, {"nonmaskable"}

    def __init__(self, tape):
        self.tape = tape

    def tell(self, *kinds):
        """The first of these kinds that the act entered, with its words after the first."""
        for entry in self.tape:
            for kind in kinds:
                if entry.what == kind or entry.what.startswith(kind + " "):
                    return kind, entry.what[len(kind):].split()
        raise Untold

    def first(self, port):
        kind, words = self.tell(f"got {port}", f"seen {port}", f"missed get {port}")
        return None if kind.startswith("missed") else (int(words[0]), int(words[1], 16))

    def room(self, port):
        return not self.tell(f"sent {port}", f"room {port}", f"missed put {port}")[0].startswith("missed")

    def take(self, port):
        pass

    def put(self, port, item):
        pass

    def read(self, addr):
        kind, words = self.tell(f"read {addr:08X}", f"readrefused {addr:08X}")
        return None if kind.startswith("readrefused") else int(words[0], 16)

    def write(self, addr, word):
        return None if self.tell(f"wrote {addr:08X}", f"writerefused {addr:08X}")[0].startswith("writerefused") else word


def first_view(run, name, images):
    row = run.cores[name]
    view = board.view(images[row["image"]], name, row, run.file.get("network", False))
    view.due_tick = lambda: 0  # in which tick an act comes, the journal says
    return view


def do_act(view, take, tape):
    """Takes the view over one act; answers whether it entered what the journal says."""
    view.told, acted = [], True
    try:
        if take:
            view.enter(take)
        else:
            acted = view.act(Told(tape))
    except Untold:
        return False
    return acted and view.told == [entry.what for entry in tape]


def lets_in(view, kind):
    """Whether a view lets a take of this kind in."""
    free = not view.msr & (BIP | EIP)
    return view.may_take() and (kind == "nonmaskable" or free) and (kind != "interrupt" or bool(view.msr & IE))


def is_high(changes, act):
    """Whether the last change of the line with an act of at most this one is a rise."""
    return next((change.kind == "lineup" for change in reversed(changes) if change.act <= act), False)


def breaks_of(run, name, kind):
    return [row["cycle"] for _, row in board.rows(run.file, "event") if (row["core"], row["kind"]) == (name, kind)]


def take_faults(run, images):
    for name in run.cores:
        tapes, changes = collections.defaultdict(list), []
        for entry in run.entries:
            if entry.who == name and entry.of_act:
                tapes[entry.act].append(entry)
            elif entry.who == name and entry.kind in ("lineup", "linedown"):
                changes.append(entry)
        for act in sorted(act for act in tapes if act >= run.acts[name]):
            run.refuse("take", "beyond the last act", tapes[act][0])
        for kind in ("break", "nonmaskable"):
            taken = [entry for tape in tapes.values() for entry in tape if entry.what == "took " + kind]
            if len(taken) > len(breaks_of(run, name, kind)):
                run.refuse("take", "more breaks than the board has", taken[-1])
        act_faults(run, name, first_view(run, name, images), tapes, changes)


def act_faults(run, name, view, tapes, changes):
    """Goes over the acts of a core, as far as its entries agree with what it does."""
    for act in range(run.acts[name]):
        tape = tapes.get(act, [])
        takes = [entry for entry in tape if entry.kind == "took"]
        for entry in takes:
            take_fault(run, view, entry, is_high(changes, act))
        if not takes and lets_in(view, "interrupt") and is_high(changes, act):
            run.refuse("take", "an interrupt was passed over", f"{name} {act}")
        if not do_act(view, takes[0].words[0] if takes else None, tape):
            run.refuse("views", f"the act enters {view.told}", f"{name} {act}")
            return


def take_fault(run, view, entry, high):
    kind = entry.words[0]
    if not lets_in(view, kind):
        run.refuse("take", "the view lets none in", entry)
    if kind == "interrupt" and not high:
        run.refuse("take", "the line is low", entry)
    if kind != "interrupt" and not any(cycle <= entry.cycle for cycle in breaks_of(run, entry.who, kind)):
        run.refuse("take", "no such break has come", entry)


# the progress bound

class Pace:
    """Of one core: what its entries so far record, and its ticks in which it could not act."""

    def __init__(self, clock):
        self.clock, self.asleep, self.stopped, self.kept = clock, False, False, None
        self.rests = 0

    def tell(self, entry):
        self.asleep = entry.kind == "slept" or self.asleep and entry.kind != "took"
        self.stopped = self.stopped or entry.kind == "stopped"
        if entry.by_tick:
            self.kept = entry if entry.kind == "wait" else None

    def ticks_below(self, cycle):
        return -(-cycle // self.clock)

    def rest_between(self, first, end, holds):
        """The ticks from a cycle to before another one, with no entry between."""
        if self.asleep or self.stopped or self.kept is not None and holds.is_shut(self.kept):
            self.rests += self.ticks_below(end) - self.ticks_below(first)

    def tick(self, own, holds):
        """A tick and its entries."""
        asleep, stopped, shut = self.asleep, self.stopped, {}
        for entry in own:
            self.tell(entry)
        self.rests += bool(asleep and self.asleep or stopped or self.kept is not None and holds.is_shut(self.kept))
        for entry in own:
            holds.tell(entry)


def progress_faults(run):
    """Needs the order of the journal. Where no entry is, nothing changes: so cycles without one are counted together. The bound
    at the end is that of `KeepsPace`: one tick more, and all rests."""
    paces, holds, done = {name: Pace(clock) for name, clock in run.clocks.items()}, Holds(run), 0
    for cycle, together in itertools.groupby(run.entries, lambda entry: entry.cycle):
        for pace in paces.values():
            pace.rest_between(done, cycle, holds)
        pace_faults(run, paces, holds, cycle, list(together))
        done = cycle + 1
    for name, pace in paces.items():
        pace.rest_between(done, run.cycles, holds)
        if run.ends[name] != "ended" and pace.ticks_below(run.cycles) + 1 > PACE * (run.acts[name] + 1) + pace.rests:
            run.refuse("progress", "the end is behind its time", name)


def pace_faults(run, paces, holds, cycle, entries):
    """One cycle with its entries."""
    for entry in entries:
        if not entry.by_tick:
            holds.tell(entry)
        elif paces[entry.who].ticks_below(cycle + 1) > PACE * (entry.act + 1) + paces[entry.who].rests:
            run.refuse("progress", "behind its time", entry)
    for name in run.turns(cycle):
        paces[name].tick([entry for entry in entries if entry.by_tick and entry.who == name], holds)


# all of them

def faults(file, images, journal, report):
    run = Run(file, journal, report)
    if run.faults:
        return run.faults
    order_faults(run)
    if not run.faults:
        progress_faults(run)
    link_faults(run)
    take_faults(run, images)
    return run.faults


def faults_of_files(folder, name, journal, report):
    """The same for the board file of this name, whose images stand beside it."""
    file = board_rules.least_fault(pathlib.Path(folder, name).read_bytes())[1]
    images = {row["image"]: pathlib.Path(folder, row["image"]).read_bytes() for _, row in board.rows(file, "core")}
    return faults(file, images, journal, report)
