"""`mbsim debug` on the plain board: what the commands of a script print. Apart from the proved program.

    python3 model/debugger.py BOARD [--cycles N] [--journal N] < SCRIPT

does what `mbsim debug` does, only slower.
"""
import sys

import board
import board_rules
import elf
import script_rules

MOST_SCRIPT = 1_048_576
# what each probe counts, in order of attachment: of a line of the journal whose it is, and what it tells
PROBES = {
    b"count": lambda who, what: True,
    b"trace": lambda who, what: True,
    b"watch": lambda who, what: what in ("raised", "stopped"),
    b"cover": lambda who, what: who != "-",
}
KEPT = 16


def number(word):
    return int(word, 16 if word[:2] == b"0x" else 10)


class Session:
    """A board that a script moves, with its limits, its breakpoints and its probes."""

    def __init__(self, one, symbols, cycles, entries):
        self.board, self.symbols, self.cycles, self.entries = one, symbols, cycles, entries
        self.numbers = {name.encode(): k for k, (name, *_) in enumerate(one.cores)}
        self.breaks, self.attached = set(), dict(PROBES)

    def counted(self, probe, begin=0):
        """How many lines of the journal from one on the probe counts."""
        split = (line.split() for line in self.board.journal[begin:])
        return sum(PROBES[probe](words[1], words[3]) for words in split)

    def address(self, core, word):
        """A number, or the value of the first symbol of that name."""
        if word[:1].isdigit():
            return number(word)
        return next(value for name, value in self.symbols[core] if name == word)

    def is_at_its_end(self):
        one = self.board
        return one.still() is not None or one.cycle == self.cycles or self.entries - len(one.journal) < one.need

    def stops_after(self, acts, begin):
        """Whether the cycle that just was came to a breakpoint, or had a probe ask."""
        if b"watch" in self.attached and self.counted(b"watch", begin):
            return True
        return any(self.board.acts[k] != acts[k] and self.board.cores[k][2].pc == at for k, at in self.breaks)

    def move(self, count, heeds):
        for _ in range(count):
            if self.is_at_its_end():
                break
            acts, begin = list(self.board.acts), len(self.board.journal)
            self.board.do_cycle()
            if heeds and self.stops_after(acts, begin):
                break
        return f"cycle {self.board.cycle}\n"

    def registers(self, name):
        one = self.board.cores[self.numbers[name]][2]
        listed = [f"r{k} {one.r[k]:08X}" for k in range(32)]
        lines = [" ".join(listed[k:k + 4]) for k in range(0, 32, 4)]
        lines.append(f"pc {one.pc:08X} msr {one.status():08X} ear {one.ear:08X} esr {one.esr:08X} btr {one.btr:08X} edr {one.edr:08X}")
        return "".join(line + "\n" for line in lines)

    def memory(self, name, begin, count):
        held = self.board.cores[self.numbers[name]][2].memory
        shown = [f"{held[at]:02X}" if at < len(held) else "--" for at in range(begin, begin + count)]
        return "".join(" ".join(shown[k:k + 16]) + "\n" for k in range(0, count, 16))

    def probe(self, name):
        last = self.board.journal[-KEPT:] if name == b"trace" else []
        return f"{name.decode()} {self.counted(name)}\n" + "".join(last)

    def do(self, line):
        """What a command prints."""
        command, *words = line.split(b" ")
        if command == b"break":
            self.breaks.add((self.numbers[words[0]], self.address(*words)))
            return ""
        if command in (b"step", b"run"):
            return self.move(number(words[0]), command == b"run")
        if command == b"regs":
            return self.registers(words[0])
        if command == b"mem":
            return self.memory(words[0], self.address(*words[:2]), number(words[2]))
        if command == b"links":
            return "".join(f"link {link.name} holds {len(link.items)} of {link.depth}\n" for link in self.board.links)
        if command == b"where":
            return "".join(line + "\n" for line in self.board.report(0).splitlines() if line.startswith("core "))
        if command == b"probe":
            return self.probe(words[0])
        if command == b"drop":
            del self.attached[words[0]]
            return f"dropped {words[0].decode()}\n"
        return "".join(f"probe {name.decode()} {name.decode()}\n" for name in self.attached)


def debug(folder, name, script, cycles=board.CYCLES, entries=board.ENTRIES):
    """What `mbsim debug` of a board file and a script comes to; nothing is written."""
    try:
        fault, file = board_rules.least_fault(board.load(folder, name, board.LIMITS["board"]))
        if fault:
            raise board.Refused(6, f"board {fault[0]} at {fault[1].decode(errors='replace')}")
        one = board.build(file, folder)
        images = {core.encode(): board.load(folder, row["image"], board.LIMITS["image"]) for core, row in board.rows(file, "core")}
        symbols = {core: elf.symbols(data) for core, data in images.items()}
        if len(script) > MOST_SCRIPT:
            raise board.Refused(15, "script is too long")
        fault = script_rules.first_fault(script, {core: [name for name, _ in listed] for core, listed in symbols.items()}, PROBES)
        if fault:
            raise board.Refused(12, f"script {fault[0]} at line {fault[1]}")
    except board.Refused as refused:
        return board.Outcome(refused.status, err=f"mbsim: {refused.line}\n")
    session = Session(one, symbols, cycles, entries)
    return board.Outcome(0, "".join(session.do(line) for line in script.split(b"\n") if line))


def call(folder, words, script):
    """What the words come to, in a folder, with a script on the standard input."""
    try:
        name, found = board.read_words(words)
    except board.Refused as refused:
        return board.Outcome(refused.status, err=f"mbsim: {refused.line}\n")
    return debug(folder, name, script, found.get("cycles", board.CYCLES), found.get("journal", board.ENTRIES))


def main():
    done = call(".", ["debug", *sys.argv[1:]], sys.stdin.buffer.read())
    print(done.out, end="")
    print(done.err, end="", file=sys.stderr)
    return done.status


if __name__ == "__main__":
    sys.exit(main())
