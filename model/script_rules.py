"""The rules of a debugger's script: the first fault of a text, or None. Apart from the proved program.

`fuzz SCRIPT` compares the program with them, and `test_script_rules.py` tests them by scripts that were judged by hand.
"""
import re

MOST_BREAKPOINTS = 64
# each command, with the kinds of its words
COMMANDS = {"break": ("core", "address"), "step": ("cycles",), "run": ("cycles",), "regs": ("core",), "mem": ("core", "address", "bytes"),
            "links": (), "where": (), "list": (), "probe": ("probe",), "drop": ("probe",)}
NUMBER = re.compile(rb"[0-9]{1,19}|0x[0-9A-Fa-f]{1,8}")
RANGES = {"cycles": (0, 10**12), "bytes": (1, 4096), "address": (0, 2**32 - 1)}


def is_number(word, low, high):
    return bool(NUMBER.fullmatch(word)) and low <= int(word, 16 if word[:2] == b"0x" else 10) <= high


class Rules:
    """What a line is judged by: for each core the symbols of its image, the probes that are attached, and the breakpoints so far."""

    def __init__(self, symbols, probes):
        self.symbols, self.probes, self.breakpoints = symbols, set(probes), 0

    def word_code(self, kind, word, core):
        """The code of a word that is wrong, or None."""
        if kind == "core":
            return None if word in self.symbols else 1203
        if kind == "probe":
            return None if word in self.probes else 1205
        if kind == "address" and not word[:1].isdigit():
            # a core that isn't there has no image to look into
            return None if word in self.symbols.get(core, (word,)) else 1204
        return None if is_number(word, *RANGES[kind]) else 1204

    def line_code(self, line):
        """The least code of a line, or None, with what the line changes for later ones."""
        name, *rest = line.split(b" ")
        kinds = COMMANDS.get(name.decode(errors="replace"))
        if kinds is None:
            return 1201
        if len(rest) != len(kinds):
            return 1202
        codes = {self.word_code(kind, word, rest[0]) for kind, word in zip(kinds, rest)} - {None}
        if name == b"break":
            self.breakpoints += 1
            codes |= {1206} if self.breakpoints > MOST_BREAKPOINTS else set()
        if name == b"drop":
            self.probes.discard(rest[0])
        return min(codes, default=None)


def first_fault(text, symbols, probes):
    """The code and the line of a script's first fault, or None."""
    rules = Rules(symbols, probes)
    for number, line in enumerate(text.split(b"\n"), 1):
        code = rules.line_code(line) if line else None
        if code:
            return code, number
    return None
