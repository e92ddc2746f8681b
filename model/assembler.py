"""The assembler and the texts of words, plain and slow, from `docs/ASSEMBLER.md` and the instruction table. Apart from the
proved program.

A source is first read line by line; only where no line has a fault is it laid out, and its bytes are made.
"""
import dataclasses
import re

import core
import elf
from instructions import FIELDS, IMMEDIATE, ROWS, SHIFTS, WORD, signed

MOST_TOKENS, MOST_BYTES, MOST_PARTS, MOST_ADDRESS = 40, 1_048_576, 65_534, 67_108_864
NAME = re.compile(rb"[A-Za-z_.$][A-Za-z0-9_.$]*")
NUMBER = re.compile(rb"[0-9-][A-Za-z0-9_.$]*")
WHOLE_NUMBER = re.compile(rb"-?(?:0x[0-9A-Fa-f]+|[0-9]+)")
TEXT = re.compile(rb'"((?:[\x20\x21\x23-\x5B\x5D-\x7E]|\\[n\\"])*)"')
REGISTER, LINK = re.compile(r"r([0-9]|[12][0-9]|3[01])"), re.compile(r"rfsl([0-9]|1[0-5])")
SPECIALS = ("rpc", "rmsr", "rear", "resr", "rbtr", "redr")
LINK_NAME = re.compile(r"(t?n?e?c?a?)(getd?|putd?)")
LINK_BITS = {"n": 16, "c": 8, "t": 4, "a": 2, "e": 1}
BITS = {name: (form, bits) for name, form, bits in ROWS} | {"la": ("B", dict((row[0], row[2]) for row in ROWS)["addik"])}
# the largest number of each form whose last operand is one, but no value
FIELD_ENDS = {"S": 31, "E": 0x7FFF, "M": 31}
BY_DISTANCE = re.compile("bri|brl?id|b(eq|ne|lt|le|gt|ge)id?")
DIRECTIVES = (".org", ".word", ".half", ".byte", ".ascii", ".space", ".align", ".entry", ".global", ".text")
RANGES = {".half": (-32_768, 65_535), ".byte": (-128, 255)}
SIZES = {".word": 4, ".half": 2, ".byte": 1}


class Fault(Exception):
    def __init__(self, code, line, column):
        super().__init__(code, line, column)
        self.code, self.line, self.column = code, line, column


@dataclasses.dataclass
class Token:
    kind: str  # word, number, text, comma or colon
    column: int
    value: object = None


@dataclasses.dataclass
class Piece:
    """An instruction or a directive, with what it needs to be laid out."""
    line: int
    column: int
    name: str
    bits: int = 0
    value: object = None  # a number, or the name of a label; None where there is none
    values: tuple = ()
    follows_imm: bool = False
    has_prefix: bool = False
    at: int = 0  # where it begins
    size: int = 0


def is_branch(name):
    return name.startswith("rt") or name[0] == "b" and not name.startswith("bs")


def has_slot(name):
    return is_branch(name) and name.endswith("d")


# lines

def tokens_of(line, ends):
    """The tokens before the first fault of a line, and the code and column of this fault or None."""
    if ends and line.endswith(b"\r"):
        line = line[:-1]
    found, at = [], 0
    while at < len(line):
        byte, column = line[at:at + 1], at + 1
        if byte in b" \t":
            at += 1
            continue
        if byte == b"#":
            break
        name, number = NAME.match(line, at), NUMBER.match(line, at)
        if name:
            token, at = Token("word", column, name.group().decode()), name.end()
        elif number:
            value = int(number.group(), 0 if b"x" in number.group() else 10) if WHOLE_NUMBER.fullmatch(number.group()) else None
            if value is None or not -2**31 <= value < 2**32:
                return found, (1109, column)
            token, at = Token("number", column, value), number.end()
        elif byte == b'"':
            text = TEXT.match(line, at)
            if not text:
                return found, (1109, column)
            plain = re.sub(rb"\\(.)", lambda escape: b"\n" if escape.group(1) == b"n" else escape.group(1), text.group(1))
            token, at = Token("text", column, plain), text.end()
        elif byte in b",:":
            token, at = Token("comma" if byte == b"," else "colon", column), at + 1
        else:
            return found, (1110, column)
        if len(found) == MOST_TOKENS:
            return found, (1112, column)
        found.append(token)
    return found, None


def operands_of(tokens):
    """The operands between the commas, or None where they don't stand so."""
    if any((token.kind == "comma") != bool(k % 2) or token.kind == "colon" for k, token in enumerate(tokens)):
        return None
    return None if tokens and len(tokens) % 2 == 0 else tokens[::2]


def is_reserved(word):
    return bool(REGISTER.fullmatch(word) or LINK.fullmatch(word) or word in SPECIALS)


class Reading:
    """All lines of a source, and all faults of the first round."""

    def __init__(self, source):
        self.faults, self.pieces, self.labels = [], [], {}
        self.wanted = []  # operands that are labels: name, line, column
        self.after_imm = False
        lines = source.split(b"\n")
        for number, line in enumerate(lines, 1):
            self.read_line(number, *tokens_of(line, number < len(lines)))
        self.faults += [(line, column, 1104) for name, line, column in self.wanted if name not in self.labels]

    def read_line(self, line, tokens, fault):
        if fault:
            self.faults.append((line, fault[1], fault[0]))
        while len(tokens) > 1 and tokens[0].kind == "word" and tokens[1].kind == "colon":
            name = tokens[0].value
            if name in self.labels:
                self.faults.append((line, tokens[0].column, 1105))
            else:
                self.labels[name] = len(self.pieces)
            tokens = tokens[2:]
        if not tokens:
            return
        head = tokens[0]
        form = self.form_of(head)
        if form is None:
            code = 1108 if head.kind == "word" and head.value.startswith(".") else 1101
            self.faults.append((line, head.column, code))
        elif not fault:
            try:
                self.add(line, head, form, operands_of(tokens[1:]))
            except Fault as refused:
                self.faults.append((refused.line, refused.column, refused.code))

    @staticmethod
    def form_of(head):
        """The form of a mnemonic, or the name of a directive; None for neither."""
        if head.kind != "word":
            return None
        name = head.value
        if name in DIRECTIVES or name in ("nop", "mfs", "mts"):
            return name
        letters = LINK_NAME.fullmatch(name)
        if letters:
            return None if letters.group(2).startswith("put") and "e" in letters.group(1) else "link"
        return BITS[name][0] if name in BITS and " " not in name else None

    def add(self, line, head, form, operands):
        piece = Piece(line, head.column, head.value, follows_imm=self.after_imm)
        if operands is None:
            raise self.kinds(piece)
        if form in DIRECTIVES:
            self.read_directive(piece, operands)
            # what may put bytes parts a written `imm` from its instruction
            if form == ".org" or piece.size or form in SIZES or form == ".align" and piece.value > 4:
                self.after_imm = False
        else:
            self.read_instruction(piece, form, operands)
            self.after_imm = form == "I" and head.value == "imm"
        self.pieces.append(piece)

    @staticmethod
    def kinds(piece):
        return Fault(1102, piece.line, piece.column)

    def number(self, piece, token, low, high):
        if token.kind != "number":
            raise self.kinds(piece)
        if not low <= token.value <= high:
            raise Fault(1103, piece.line, token.column)
        return token.value

    def label(self, piece, token):
        if token.kind != "word" or is_reserved(token.value):
            raise self.kinds(piece)
        self.wanted.append((token.value, piece.line, token.column))
        return token.value

    def register(self, piece, token, pattern=REGISTER):
        found = pattern.fullmatch(token.value) if token.kind == "word" else None
        if not found:
            raise self.kinds(piece)
        return int(found.group(1))

    def count(self, piece, operands, *wanted):
        if len(operands) not in wanted:
            raise self.kinds(piece)

    def read_directive(self, piece, operands):
        name = piece.name
        if name == ".text":
            self.count(piece, operands, 0)
        elif name in SIZES:
            if not operands:
                raise self.kinds(piece)
            for token in operands:
                if token.kind != "number" and (name != ".word" or token.kind != "word" or is_reserved(token.value)):
                    raise self.kinds(piece)
            low, high = RANGES.get(name, (-2**31, 2**32 - 1))
            piece.values = tuple(self.number(piece, token, low, high) if token.kind == "number" else self.label(piece, token)
                                 for token in operands)
        else:
            self.count(piece, operands, 1)
            token = operands[0]
            if name == ".ascii":
                if token.kind != "text":
                    raise self.kinds(piece)
                piece.value, piece.size = token.value, len(token.value)
            elif name == ".entry":
                piece.value = self.label(piece, token)
            elif name == ".global":
                if token.kind != "word":
                    raise self.kinds(piece)
            else:
                piece.value = self.number(piece, token, 0, 2**32 - 1)
                if name == ".org" and piece.value % 4 or name == ".align" and piece.value not in (1, 2, 4, 8, 16):
                    raise Fault(1103, piece.line, token.column)
                piece.size = piece.value if name == ".space" else 0

    def read_instruction(self, piece, form, operands):
        """Its bits without the value."""
        name = piece.name
        if form == "nop":
            self.count(piece, operands, 0)
            piece.bits = BITS["or"][1]
        elif form == "mfs":
            self.count(piece, operands, 2)
            register, special = self.register(piece, operands[0]), operands[1].value
            if operands[1].kind != "word" or special not in SPECIALS:
                raise self.kinds(piece)
            piece.bits = BITS[f"mfs {special}"][1] | register << SHIFTS["rD"]
        elif form == "mts":
            self.count(piece, operands, 2)
            if operands[0].kind != "word" or operands[0].value != "rmsr":
                raise self.kinds(piece)
            piece.bits = BITS["mts rmsr"][1] | self.register(piece, operands[1]) << SHIFTS["rA"]
        elif form == "link":
            self.read_link(piece, operands)
        elif name == "imm":
            self.count(piece, operands, 1)
            piece.bits = BITS[name][1] | self.number(piece, operands[0], 0, 65_535)
        elif name == "mbar":
            self.count(piece, operands, 1)
            piece.bits = BITS[name][1] | self.number(piece, operands[0], 0, FIELD_ENDS["M"]) << SHIFTS["rD"]
        else:
            self.read_row(piece, form, operands)

    def read_row(self, piece, form, operands):
        fields = FIELDS[form]
        last = form in IMMEDIATE or form in FIELD_ENDS
        self.count(piece, operands, len(fields) + last)
        piece.bits = BITS[piece.name][1]
        for field, token in zip(fields, operands):
            piece.bits |= self.register(piece, token) << SHIFTS[field]
        if form in FIELD_ENDS:
            piece.bits |= self.number(piece, operands[-1], 0, FIELD_ENDS[form])
        elif form in IMMEDIATE and piece.follows_imm:
            piece.bits |= self.number(piece, operands[-1], -32_768, 65_535) & 0xFFFF
        elif form in IMMEDIATE:
            token = operands[-1]
            piece.value = token.value if token.kind == "number" else self.label(piece, token)

    def read_link(self, piece, operands):
        letters, name = LINK_NAME.fullmatch(piece.name).groups()
        self.count(piece, operands, 2, *([1] if "t" in letters and name.startswith("put") else []))
        piece.bits = BITS[name][1] | sum(LINK_BITS[letter] for letter in letters) << (5 if name.endswith("d") else 10)
        if len(operands) == 2:
            piece.bits |= self.register(piece, operands[0]) << SHIFTS["rD" if name.startswith("get") else "rA"]
        by_register = name.endswith("d")
        port = self.register(piece, operands[-1], REGISTER if by_register else LINK)
        piece.bits |= port << SHIFTS["rB"] if by_register else port


# layout

def is_instruction(piece):
    return piece.name not in DIRECTIVES


def fits(value):
    return signed(value, 16) == value


class Layout:
    """The places of all pieces and labels, with prefixes where the values ask for them."""

    def __init__(self, reading):
        self.pieces = reading.pieces
        self.names = {}
        for name, index in reading.labels.items():
            self.names.setdefault(index, []).append(name)
        for piece in self.pieces:
            piece.has_prefix = type(piece.value) is int and is_instruction(piece) and not fits(piece.value)
        self.place()
        while self.grow():
            self.place()

    def place(self):
        self.labels, at = {}, 0
        for index, piece in enumerate(self.pieces):
            for name in self.names.get(index, ()):
                self.labels[name] = at
            piece.at = at
            if piece.name == ".org":
                piece.size, at = 0, piece.value
                continue
            if is_instruction(piece):
                piece.size = 8 if piece.has_prefix else 4
            elif piece.name in SIZES:
                piece.size = SIZES[piece.name] * len(piece.values)
            elif piece.name == ".align":
                piece.size = -at % piece.value
            at += piece.size
        for name in self.names.get(len(self.pieces), ()):
            self.labels[name] = at

    def value(self, piece):
        """The number that the value of an instruction is."""
        if type(piece.value) is not str:
            return piece.value
        address = self.labels[piece.value]
        return address - piece.at - (4 if piece.has_prefix else 0) if BY_DISTANCE.fullmatch(piece.name) else address

    def grow(self):
        """Gives each label that doesn't fit its prefix, all under one layout; whether there was any."""
        late = [piece for piece in self.pieces if is_instruction(piece) and type(piece.value) is str
                and not piece.has_prefix and not fits(self.value(piece))]
        for piece in late:
            piece.has_prefix = True
        return bool(late)

    def parts(self):
        """The parts, each the piece of its `.org`, or None, with its pieces."""
        found = [(None, 0, [])]
        for piece in self.pieces:
            if piece.name == ".org":
                found.append((piece, piece.value, []))
            else:
                found[-1][2].append(piece)
        return [(org, begin, inside, sum(piece.size for piece in inside)) for org, begin, inside in found]

    def faults(self):
        """The faults of the second round."""
        faults, total = [], 0
        for piece in self.pieces:
            total += piece.size
            end = piece.value if piece.name == ".org" else piece.at + piece.size
            if total > MOST_BYTES or end > MOST_ADDRESS:
                faults.append((piece.line, piece.column, 1112))
                break
        for piece in self.pieces:
            if is_instruction(piece) and piece.at % 4:
                faults.append((piece.line, piece.column, 1103))
        kept = [(org, begin, begin + size) for org, begin, _, size in self.parts() if size]
        faults += [(org.line, org.column, 1112) for org, _, _ in kept[MOST_PARTS:MOST_PARTS + 1]]
        return faults + self.overlaps(kept) + self.slots()

    @staticmethod
    def overlaps(kept):
        """The first part that shares a byte with an earlier one."""
        for k, (org, begin, end) in enumerate(kept):
            if any(begin < other_end and other < end for _, other, other_end in kept[:k]):
                return [(org.line, org.column, 1111)]
        return []

    def slots(self):
        faults = []
        for _, _, inside, _ in self.parts():
            solid = [piece for piece in inside if piece.size]
            for piece, after in zip(solid, solid[1:] + [None]):
                if not (is_instruction(piece) and has_slot(piece.name)):
                    continue
                if after is None or not is_instruction(after):
                    faults.append((piece.line, piece.column, 1107))
                elif after.has_prefix or after.name in ("imm", "mbar") or is_branch(after.name):
                    faults.append((after.line, after.column, 1106))
        return faults

    def bytes_of(self, piece, order):
        where = "big" if order == "big" else "little"
        if piece.name in SIZES:
            size = SIZES[piece.name]
            numbers = [self.labels[value] if type(value) is str else value for value in piece.values]
            return b"".join((number % 256**size).to_bytes(size, where) for number in numbers)
        if piece.name == ".ascii":
            return piece.value
        if not is_instruction(piece):
            return bytes(piece.size)
        value = self.value(piece) if piece.value is not None else 0
        words = [BITS["imm"][1] | value >> 16 & 0xFFFF] * piece.has_prefix + [piece.bits | value & 0xFFFF]
        return elf.words(words, order)


def assemble(source, order="big"):
    """The ELF file of a source; `Fault` with its first fault."""
    reading = Reading(source)
    if reading.faults:
        raise first(reading.faults)
    layout = Layout(reading)
    if layout.faults():
        raise first(layout.faults())
    parts = [elf.Part(begin, b"".join(layout.bytes_of(piece, order) for piece in inside))
             for _, begin, inside, size in layout.parts() if size]
    entries = [layout.labels[piece.value] for piece in layout.pieces if piece.name == ".entry"]
    entry = entries[-1] if entries else parts[0].address if parts else 0
    return elf.write(elf.Image(order, entry, parts))


def first(faults):
    line, column, code = min(faults)
    return Fault(code, line, column)


# texts

def text_of(word):
    """The text of a word."""
    name, form = core.decode(word)
    if name is None:
        return f".word 0x{word:08X}"
    fields = {field: f"r{word >> shift & 31}" for field, shift in SHIFTS.items()}
    operands = [fields[field] for field in FIELDS[form]]
    if core.is_link(name):
        by_register = name.endswith("d")
        flags = core.link_flags(word, name)
        letters = "".join(letter for letter in "tneca" if flags & LINK_BITS[letter])
        return f"{letters}{name} {', '.join(operands if by_register else operands + [f'rfsl{word & 15}'])}"
    if name == "imm":
        return f"imm 0x{word & 0xFFFF:04X}"
    if name == "mbar":
        return f"mbar {word >> SHIFTS['rD'] & 31}"
    if " " in name:
        name, special = name.split()
        operands = operands + [special] if name == "mfs" else [special] + operands
    elif form in FIELD_ENDS:
        operands.append(str(word & FIELD_ENDS[form]))
    elif form in IMMEDIATE:
        operands.append(str(signed(word, 16)))
    return f"{name} {', '.join(operands)}"


def listing(data):
    """What `dis` prints of an image."""
    image = elf.read(data, WORD + 1)
    mark = "big" if image.order == "big" else "little"
    return "".join(f"{part.address + at:08X} {word:08X} {text_of(word)}\n"
                   for part in image.parts if part.code for at in range(0, len(part.data) // 4 * 4, 4)
                   for word in (int.from_bytes(part.data[at:at + 4], mark),))
