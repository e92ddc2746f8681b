"""The instructions of a MicroBlaze (UG984): a line says all of one, with its effect written as the guide writes it.

An effect sees a core like `core.Core`, the operands of the instruction, and the ports.
"""
import typing

WORD = 0xFFFF_FFFF
IE, C, BIP, FSL, DZO, EE, EIP = 2, 4, 8, 0x10, 0x40, 0x100, 0x200
WRITABLE = 0x3FE

MASKS = {
    "A": 0xFC0007FF, "U": 0xFC00FFFF, "B": 0xFC000000, "S": 0xFC00FFE0, "R": 0xFFFF07FF, "RL": 0xFC1F07FF,
    "I": 0xFFFF0000, "IL": 0xFC1F0000, "CR": 0xFFE007FF, "CI": 0xFFE00000, "M": 0xFC1FFFFF, "T": 0xFFE0FFFF,
    "E": 0xFC1F8000, "G": 0xFC1F83F0, "P": 0xFFE087F0, "GD": 0xFC1F041F, "PD": 0xFFE0043F,
}
# the register fields of each form
FIELDS = {form: fields.split() for form, fields in {
    "A": "rD rA rB", "U": "rD rA", "B": "rD rA", "S": "rD rA", "R": "rB", "RL": "rD rB", "I": "", "IL": "rD", "CR": "rA rB",
    "CI": "rA", "M": "rD", "T": "rA", "E": "rD", "G": "rD", "P": "rA", "GD": "rD rB", "PD": "rA rB"}.items()}
SHIFTS = {"rD": 21, "rA": 16, "rB": 11}
IMMEDIATE = {"B", "I", "IL", "CI"}


class Operands(typing.NamedTuple):
    """The number of rD; the values of rA, of the second operand and of rD; and the whole word."""
    rd: int
    a: int
    b: int
    d: int
    word: int


def signed(word, bits=32):
    word &= (1 << bits) - 1
    return word - (1 << bits) if word >> (bits - 1) else word


# The effects of several rows, by what parts them.

def adds(carry=False, keep=False):
    """a + b, with C; C becomes the carry out, but where it is kept."""
    def effect(core, i, ports):
        core.put_sum(i.rd, i.a + i.b + (core.carry() if carry else 0), keep)
    return effect


def subtracts(carry=False, keep=False):
    """b + not a + 1, with C in place of 1."""
    def effect(core, i, ports):
        core.put_sum(i.rd, i.b + (~i.a & WORD) + (core.carry() if carry else 1), keep)
    return effect


def result(value):
    """rD = a value of the operands."""
    def effect(core, i, ports):
        core.result(i.rd, value(i))
    return effect


def compares(is_greater):
    """b - a, its top bit replaced."""
    return result(lambda i: (i.b - i.a) & 0x7FFFFFFF | is_greater(i) << 31)


def divides(has_signs):
    def effect(core, i, ports):
        core.divide(has_signs, i.rd, i.a, i.b)
    return effect


def first_equal_byte(i):
    same = [k + 1 for k in range(4) if (i.a >> 24 - 8 * k & 255) == (i.b >> 24 - 8 * k & 255)]
    return same[0] if same else 0


def shifts_by_one(top):
    """a shifted right by one, with a new top bit; C = the old low bit."""
    def effect(core, i, ports):
        shifted = top(core, i) << 31 | i.a >> 1
        core.advance()
        core.put_flag(C, i.a & 1)
        core.put_register(i.rd, shifted)
    return effect


def moves_from(read):
    def effect(core, i, ports):
        core.result(i.rd, read(core))
    return effect


def moves_to_msr(core, i, ports):
    core.msr = i.a & WRITABLE
    core.advance()


def changes_msr(change):
    """rD = the old MSR; then it changes by the bits of the 15-bit immediate."""
    def effect(core, i, ports):
        old = core.status()
        core.msr = change(core.msr, i.word & 0x7FFF & WRITABLE)
        core.result(i.rd, old)
    return effect


def nothing(core, i, ports):
    core.advance()


def holds_prefix(core, i, ports):
    core.advance()
    core.prefix = i.word & 0xFFFF


def barrier(core, i, ports):
    core.advance()
    core.asleep = i.rd in (8, 16, 24)
    if core.asleep:
        core.told.append("slept")


def branches(absolute=False, delayed=False, linked=False):
    """To b, or by b from here on; with l the own address goes to rD."""
    def effect(core, i, ports):
        here = core.pc
        core.branch(i.b if absolute else (here + i.b) & WORD, delayed)
        if linked:
            core.put_register(i.rd, here)
    return effect


def breaks_off(core, i, ports):
    here = core.pc
    core.branch(i.b, False)
    core.put_flag(BIP, True)
    core.put_register(i.rd, here)


def branches_if(holds, delayed=False):
    """By b from here on where a compares so with 0; an untaken one holds its slot too."""
    def effect(core, i, ports):
        if holds(signed(i.a)):
            core.branch((core.pc + i.b) & WORD, delayed)
        elif delayed:
            core.hold_slot((core.pc + 8) & WORD)
        else:
            core.advance()
    return effect


def returns(leave):
    """To a + b behind the slot, with MSR and ESR changed at once."""
    def effect(core, i, ports):
        core.branch((i.a + i.b) & WORD, True)
        leave(core)
    return effect


def leaves_exception(core):
    core.msr = (core.msr | EE) & ~EIP
    core.esr = 0


def loads(size):
    def effect(core, i, ports):
        core.access(False, size, i.rd, (i.a + i.b) & WORD, i.d, ports)
    return effect


def stores(size):
    def effect(core, i, ports):
        core.access(True, size, i.rd, (i.a + i.b) & WORD, i.d, ports)
    return effect


def links(name):
    def effect(core, i, ports):
        core.use_link(name, i.word, i.rd, i.a, ports)
    return effect


# Name, form, opcode, what is fixed in the 26 bits below it, effect.
TABLE = [
    ("add",       "A",  0x00, 0x0000,       adds()),
    ("rsub",      "A",  0x01, 0x0000,       subtracts()),
    ("addc",      "A",  0x02, 0x0000,       adds(carry=True)),
    ("rsubc",     "A",  0x03, 0x0000,       subtracts(carry=True)),
    ("addk",      "A",  0x04, 0x0000,       adds(keep=True)),
    ("rsubk",     "A",  0x05, 0x0000,       subtracts(keep=True)),
    ("cmp",       "A",  0x05, 0x0001,       compares(lambda i: signed(i.a) > signed(i.b))),
    ("cmpu",      "A",  0x05, 0x0003,       compares(lambda i: i.a > i.b)),
    ("addkc",     "A",  0x06, 0x0000,       adds(carry=True, keep=True)),
    ("rsubkc",    "A",  0x07, 0x0000,       subtracts(carry=True, keep=True)),
    ("addi",      "B",  0x08, 0,            adds()),
    ("rsubi",     "B",  0x09, 0,            subtracts()),
    ("addic",     "B",  0x0A, 0,            adds(carry=True)),
    ("rsubic",    "B",  0x0B, 0,            subtracts(carry=True)),
    ("addik",     "B",  0x0C, 0,            adds(keep=True)),
    ("rsubik",    "B",  0x0D, 0,            subtracts(keep=True)),
    ("addikc",    "B",  0x0E, 0,            adds(carry=True, keep=True)),
    ("rsubikc",   "B",  0x0F, 0,            subtracts(carry=True, keep=True)),
    ("mul",       "A",  0x10, 0x0000,       result(lambda i: i.a * i.b)),
    ("mulh",      "A",  0x10, 0x0001,       result(lambda i: signed(i.a) * signed(i.b) >> 32)),
    ("mulhsu",    "A",  0x10, 0x0002,       result(lambda i: signed(i.a) * i.b >> 32)),
    ("mulhu",     "A",  0x10, 0x0003,       result(lambda i: i.a * i.b >> 32)),
    ("bsrl",      "A",  0x11, 0x0000,       result(lambda i: i.a >> (i.b & 31))),
    ("bsra",      "A",  0x11, 0x0200,       result(lambda i: signed(i.a) >> (i.b & 31))),
    ("bsll",      "A",  0x11, 0x0400,       result(lambda i: i.a << (i.b & 31))),
    ("idiv",      "A",  0x12, 0x0000,       divides(has_signs=True)),
    ("idivu",     "A",  0x12, 0x0002,       divides(has_signs=False)),
    ("getd",      "GD", 0x13, 0x0000,       links("getd")),
    ("putd",      "PD", 0x13, 0x0400,       links("putd")),
    ("muli",      "B",  0x18, 0,            result(lambda i: i.a * i.b)),
    ("bsrli",     "S",  0x19, 0x0000,       result(lambda i: i.a >> (i.b & 31))),
    ("bsrai",     "S",  0x19, 0x0200,       result(lambda i: signed(i.a) >> (i.b & 31))),
    ("bslli",     "S",  0x19, 0x0400,       result(lambda i: i.a << (i.b & 31))),
    ("get",       "G",  0x1B, 0x0000,       links("get")),
    ("put",       "P",  0x1B, 0x8000,       links("put")),
    ("or",        "A",  0x20, 0x0000,       result(lambda i: i.a | i.b)),
    ("pcmpbf",    "A",  0x20, 0x0400,       result(first_equal_byte)),
    ("and",       "A",  0x21, 0x0000,       result(lambda i: i.a & i.b)),
    ("xor",       "A",  0x22, 0x0000,       result(lambda i: i.a ^ i.b)),
    ("pcmpeq",    "A",  0x22, 0x0400,       result(lambda i: i.a == i.b)),
    ("andn",      "A",  0x23, 0x0000,       result(lambda i: i.a & ~i.b)),
    ("pcmpne",    "A",  0x23, 0x0400,       result(lambda i: i.a != i.b)),
    ("sra",       "U",  0x24, 0x0001,       shifts_by_one(lambda core, i: i.a >> 31)),
    ("src",       "U",  0x24, 0x0021,       shifts_by_one(lambda core, i: core.carry())),
    ("srl",       "U",  0x24, 0x0041,       shifts_by_one(lambda core, i: 0)),
    ("sext8",     "U",  0x24, 0x0060,       result(lambda i: signed(i.a, 8))),
    ("sext16",    "U",  0x24, 0x0061,       result(lambda i: signed(i.a, 16))),
    ("clz",       "U",  0x24, 0x00E0,       result(lambda i: 32 - i.a.bit_length())),
    ("swapb",     "U",  0x24, 0x01E0,       result(lambda i: int.from_bytes(i.a.to_bytes(4, "little"), "big"))),
    ("swaph",     "U",  0x24, 0x01E2,       result(lambda i: i.a << 16 | i.a >> 16)),
    ("wdc",       "CR", 0x24, 0x0064,       nothing),
    ("wdc.clear", "CR", 0x24, 0x0066,       nothing),
    ("wic",       "CR", 0x24, 0x0068,       nothing),
    ("wdc.flush", "CR", 0x24, 0x0074,       nothing),
    ("mfs rpc",   "M",  0x25, 0x8000,       moves_from(lambda core: core.pc)),
    ("mfs rmsr",  "M",  0x25, 0x8001,       moves_from(lambda core: core.status())),
    ("mfs rear",  "M",  0x25, 0x8003,       moves_from(lambda core: core.ear)),
    ("mfs resr",  "M",  0x25, 0x8005,       moves_from(lambda core: core.esr)),
    ("mfs rbtr",  "M",  0x25, 0x800B,       moves_from(lambda core: core.btr)),
    ("mfs redr",  "M",  0x25, 0x800D,       moves_from(lambda core: core.edr)),
    ("mts rmsr",  "T",  0x25, 0xC001,       moves_to_msr),
    ("msrset",    "E",  0x25, 0x10 << 16,   changes_msr(lambda msr, bits: msr | bits)),
    ("msrclr",    "E",  0x25, 0x11 << 16,   changes_msr(lambda msr, bits: msr & ~bits)),
    ("br",        "R",  0x26, 0x00 << 16,   branches()),
    ("bra",       "R",  0x26, 0x08 << 16,   branches(absolute=True)),
    ("brk",       "RL", 0x26, 0x0C << 16,   breaks_off),
    ("brd",       "R",  0x26, 0x10 << 16,   branches(delayed=True)),
    ("brld",      "RL", 0x26, 0x14 << 16,   branches(delayed=True, linked=True)),
    ("brad",      "R",  0x26, 0x18 << 16,   branches(absolute=True, delayed=True)),
    ("brald",     "RL", 0x26, 0x1C << 16,   branches(absolute=True, delayed=True, linked=True)),
    ("beq",       "CR", 0x27, 0x00 << 21,   branches_if(lambda a: a == 0)),
    ("bne",       "CR", 0x27, 0x01 << 21,   branches_if(lambda a: a != 0)),
    ("blt",       "CR", 0x27, 0x02 << 21,   branches_if(lambda a: a < 0)),
    ("ble",       "CR", 0x27, 0x03 << 21,   branches_if(lambda a: a <= 0)),
    ("bgt",       "CR", 0x27, 0x04 << 21,   branches_if(lambda a: a > 0)),
    ("bge",       "CR", 0x27, 0x05 << 21,   branches_if(lambda a: a >= 0)),
    ("beqd",      "CR", 0x27, 0x10 << 21,   branches_if(lambda a: a == 0, delayed=True)),
    ("bned",      "CR", 0x27, 0x11 << 21,   branches_if(lambda a: a != 0, delayed=True)),
    ("bltd",      "CR", 0x27, 0x12 << 21,   branches_if(lambda a: a < 0, delayed=True)),
    ("bled",      "CR", 0x27, 0x13 << 21,   branches_if(lambda a: a <= 0, delayed=True)),
    ("bgtd",      "CR", 0x27, 0x14 << 21,   branches_if(lambda a: a > 0, delayed=True)),
    ("bged",      "CR", 0x27, 0x15 << 21,   branches_if(lambda a: a >= 0, delayed=True)),
    ("ori",       "B",  0x28, 0,            result(lambda i: i.a | i.b)),
    ("andi",      "B",  0x29, 0,            result(lambda i: i.a & i.b)),
    ("xori",      "B",  0x2A, 0,            result(lambda i: i.a ^ i.b)),
    ("andni",     "B",  0x2B, 0,            result(lambda i: i.a & ~i.b)),
    ("imm",       "I",  0x2C, 0,            holds_prefix),
    ("rtsd",      "CI", 0x2D, 0x10 << 21,   returns(lambda core: None)),
    ("rtid",      "CI", 0x2D, 0x11 << 21,   returns(lambda core: core.put_flag(IE, True))),
    ("rtbd",      "CI", 0x2D, 0x12 << 21,   returns(lambda core: core.put_flag(BIP, False))),
    ("rted",      "CI", 0x2D, 0x14 << 21,   returns(leaves_exception)),
    ("bri",       "I",  0x2E, 0x00 << 16,   branches()),
    ("mbar",      "M",  0x2E, (2 << 16) + 4, barrier),
    ("brai",      "I",  0x2E, 0x08 << 16,   branches(absolute=True)),
    ("brki",      "IL", 0x2E, 0x0C << 16,   breaks_off),
    ("brid",      "I",  0x2E, 0x10 << 16,   branches(delayed=True)),
    ("brlid",     "IL", 0x2E, 0x14 << 16,   branches(delayed=True, linked=True)),
    ("braid",     "I",  0x2E, 0x18 << 16,   branches(absolute=True, delayed=True)),
    ("bralid",    "IL", 0x2E, 0x1C << 16,   branches(absolute=True, delayed=True, linked=True)),
    ("beqi",      "CI", 0x2F, 0x00 << 21,   branches_if(lambda a: a == 0)),
    ("bnei",      "CI", 0x2F, 0x01 << 21,   branches_if(lambda a: a != 0)),
    ("blti",      "CI", 0x2F, 0x02 << 21,   branches_if(lambda a: a < 0)),
    ("blei",      "CI", 0x2F, 0x03 << 21,   branches_if(lambda a: a <= 0)),
    ("bgti",      "CI", 0x2F, 0x04 << 21,   branches_if(lambda a: a > 0)),
    ("bgei",      "CI", 0x2F, 0x05 << 21,   branches_if(lambda a: a >= 0)),
    ("beqid",     "CI", 0x2F, 0x10 << 21,   branches_if(lambda a: a == 0, delayed=True)),
    ("bneid",     "CI", 0x2F, 0x11 << 21,   branches_if(lambda a: a != 0, delayed=True)),
    ("bltid",     "CI", 0x2F, 0x12 << 21,   branches_if(lambda a: a < 0, delayed=True)),
    ("bleid",     "CI", 0x2F, 0x13 << 21,   branches_if(lambda a: a <= 0, delayed=True)),
    ("bgtid",     "CI", 0x2F, 0x14 << 21,   branches_if(lambda a: a > 0, delayed=True)),
    ("bgeid",     "CI", 0x2F, 0x15 << 21,   branches_if(lambda a: a >= 0, delayed=True)),
    ("lbu",       "A",  0x30, 0x0000,       loads(1)),
    ("lhu",       "A",  0x31, 0x0000,       loads(2)),
    ("lw",        "A",  0x32, 0x0000,       loads(4)),
    ("sb",        "A",  0x34, 0x0000,       stores(1)),
    ("sh",        "A",  0x35, 0x0000,       stores(2)),
    ("sw",        "A",  0x36, 0x0000,       stores(4)),
    ("lbui",      "B",  0x38, 0,            loads(1)),
    ("lhui",      "B",  0x39, 0,            loads(2)),
    ("lwi",       "B",  0x3A, 0,            loads(4)),
    ("sbi",       "B",  0x3C, 0,            stores(1)),
    ("shi",       "B",  0x3D, 0,            stores(2)),
    ("swi",       "B",  0x3E, 0,            stores(4)),
]
assert len(TABLE) == 123

ROWS = [(name, form, (opcode << 26) + rest) for name, form, opcode, rest, _ in TABLE]
EFFECTS = {name: effect for name, _, _, _, effect in TABLE}
