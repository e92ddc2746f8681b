"""Boards of one core that were written for one question each.

A program is the words from 40 hex on, after `VECTORS`. Get port 0 has the items of a file, and put port 0 leads to a file.
Some have devices too: a timer, a controller and a UART, whose bases are in r21, r20 and r22.
"""
import pathlib

import board
import elf
from random_boards import END, HANDLER, NOTHING, ROWS, VECTORS

ITEMS = [(0, 5), (1, 6), (0, 7), (1, 8)]
SENDS = [0x6C038000, 0x6C028000, 0x6C018000]  # put r3, put r2, put r1: what was got, and how many breaks and faults came


def word(name, rd=0, ra=0, rb=0, low=0):
    return ROWS[name][1] | rd << 21 | ra << 16 | rb << 11 | low & 0xFFFF


# a question, the words, and the breaks: cycle and kind
DIRECTED = [
    ("a sleeper that a break wakes", [0xBA020004, 0x30600001] + SENDS + [END], [(30, "break")]),
    ("a sleeper before its break", [0xBA020004, END], [(200, "break")]),
    ("a sleeper for good", [0x30600001] + SENDS + [0xBB020004, END], []),
    ("a sleeper with BIP set", [0x94100008, 0xBA020004, 0x30600001] + SENDS + [END], [(30, "break")]),
    ("a sleeper with BIP set and a break that can't be masked", [0x94100008, 0xB9020004, 0x30600001] + SENDS + [END], [(30, "nonmaskable")]),
    ("a break at the end", SENDS + [END], [(20, "break"), (40, "break")]),
    ("a break at the end after an atomic put", [0x6C038800, END], [(1, "break")]),
    ("two breaks at once", [NOTHING] * 4 + SENDS + [END], [(2, "break"), (2, "nonmaskable")]),
    ("a break while another is in progress", [NOTHING] * 4 + SENDS + [END], [(2, "nonmaskable"), (3, "break"), (3, "nonmaskable")]),
    ("the same break twice while it is pending", [0x94100008] + [NOTHING] * 4 + [0x94110008] + SENDS + [END], [(2, "break"), (3, "break")]),
    ("a break during a wait", [0x6C800003] + SENDS + [END], [(7, "break")]),
    ("a break during an atomic wait", [0x6C800803] + SENDS + [END], [(7, "break")]),
    ("a break before a fault is handled", [0x94100100, 0x58000000] + SENDS + [END], [(1, "break")]),
    ("wrong control bits that are raised", [0x94100100] + [0x6C600400] * 4 + SENDS + [END], []),
    ("wrong control bits that are not", [0x6C600400] * 4 + [0x94808001, 0x6C048000] + SENDS + [END], []),
    ("tests with e, n and c", [0x94100100, 0x6C605400, 0x6C607C00, 0x6C606400, 0x6C602400] + SENDS + [END], []),
    ("a fault in a handler", [0x94100300, 0x58000000] + SENDS + [END], []),
    ("a load from the bus with exceptions on", [0x94100100, 0xB0004000, 0xE8A00000] + SENDS + [END], []),
    ("a store to the bus with exceptions off", [0xB0004000, 0xF8A00000] + SENDS + [END], []),
    ("a byte beyond the memory", [0xB0004000, 0xE0A00000] + SENDS + [END], []),
    ("a pc beyond the memory", [0xB0004000, 0xB8080000], []),
    ("a branch in a slot", [0xB8100008, 0xB8000000], []),
    ("an end in a slot", [0xB8100008, 0xB8000000, END], []),
    ("a put to a port that leads nowhere", [0x6C038001, END], []),
    ("ports by register", [0x30800010, 0x4C602000, 0x4C032400, 0x4C602200, 0x4C032600] + SENDS + [END], []),
]

# r3 is sent, so that its value is seen as well as the tick
SEND = word("put", ra=3)
TWO = word("addik", rd=4, low=2)
# what makes r3 late, each in a word or two
LATE = {
    "a load": [word("lwi", rd=3, low=0x40)],
    "a byte": [word("lbui", rd=3, low=0x41)],
    "a product": [TWO, word("mul", rd=3, ra=4, rb=4)],
    "a product with a constant": [TWO, word("muli", rd=3, ra=4, low=-3)],
    "a shift": [TWO, word("bsll", rd=3, ra=4, rb=4)],
    "a shift by a constant": [TWO, word("bslli", rd=3, ra=4) | 7],
    "a shift by one": [TWO, word("srl", rd=3, ra=4)],
    "a quotient": [TWO, word("idiv", rd=3, ra=4, rb=4)],
    "a got item": [word("get", rd=3)],
    "a seen item": [word("get", rd=3) | 0x1000],
    "a missed item": [word("get", rd=3) | 0x4003],
    "a missed item by register": [word("addik", rd=4, low=3), word("getd", rd=3, rb=4) | 0x200],
    "a link": [word("brlid", rd=3, low=8), NOTHING],
    "the status": [word("mfs rmsr", rd=3)],
}
# what reads r3, in one word or more, and doesn't stop
USES = {
    "sent": [SEND],
    "tried": [SEND | 0x1000],
    "added": [word("addk", rd=3, ra=3, rb=3), SEND],
    "a second operand": [word("rsubk", rd=3, ra=4, rb=3), SEND],
    "an address": [word("andi", rd=3, ra=3, low=0xFC), word("lwi", rd=3, ra=3), SEND],
    "stored": [word("swi", rd=3, low=0x800), word("lwi", rd=3, low=0x800), SEND],
    "a divisor": [word("idivu", rd=3, ra=3, rb=4), SEND],
    "a condition": [word("beqi", ra=3, low=8), word("addik", rd=3, ra=3, low=1), SEND],
    "a condition with a slot": [word("bneid", ra=3, low=8), word("addik", rd=3, ra=3, low=1), SEND],
    "a port": [word("putd", ra=4, rb=3) | 0x240, SEND],
    "a line of a cache": [word("wic", ra=4, rb=3), word("wdc", ra=3, rb=4), SEND],
    "overwritten": [word("addik", rd=3, low=9), SEND],
    "left alone": [word("addik", rd=5, low=9), word("swi", rd=5, low=0x800), word("addik", rd=6, low=1)],
}
OPERANDS = [(f"{made}, {used}", LATE[made] + USES[used] + [END], []) for made in LATE for used in USES]


def patching(distance, store="swi", slot=False):
    """Stores `addik r3, r0, 7` over a word so many words from the pc after the store; r3 is sent behind all."""
    fields, place = ("swi", 4 * distance) if store == "swi" else (store, 4 * distance + 3)
    head = [word("imm", low=0x3060), word("addik", rd=4, low=7), word("brlid", rd=5, low=8), word("addik", rd=5, ra=5, low=8)]
    # r5 is the address of the next word; behind a branch with a slot the store is one further on
    head += [word("brid", low=16)] * slot + [word(fields, rd=4, ra=5, low=place + (16 if slot else 4))] + [NOTHING] * 2 * slot
    return head + [word("addik", rd=3, ra=3, low=1)] * 10 + [SEND, END]


STRIKES = [(f"a {store} {distance} words ahead{', in a slot' if slot else ''}", patching(distance, store, slot), [])
           for distance in range(-1, 10) for store, slot in (("swi", False), ("swi", True), ("sbi", False))]

# a prefix, a slot, an atomic put, a load, a store, a division, a taken branch and a raise, with a break in each cycle in turn
MIXED = [0x94100100, 0xB0001234, 0x30605678, word("brid", low=8), word("addik", rd=4, low=1), SEND | 0x800, word("lwi", rd=3, low=0x40),
         SEND, word("swi", rd=3, low=0x800), word("idivu", rd=3, ra=4, rb=3), word("get", rd=3), word("bri", low=8), NOTHING,
         word("mul", rd=3, ra=3, rb=3), word("idiv", rd=3, ra=0, rb=3), 0x58000000, SEND, word("get", rd=3) | 0x4003] + SENDS + [END]
BREAKS = [(f"a {kind} in cycle {cycle}", MIXED, [(cycle, kind)]) for kind in ("break", "nonmaskable") for cycle in range(0, 120, 2)]


WITHOUT_DEVICES = DIRECTED + OPERANDS + STRIKES + BREAKS

# programs with devices: words, breaks, and more parts by their addresses, the handler of interrupts among them

DEVICES = """
[timer.t]
core = "c"
base = 0x41C00000
irq = 1
[intc.i]
core = "c"
base = 0x41200000
[uart.u]
core = "c"
base = 0x40600000
irq = 0
output = "text"
input = "typed"
every = 20
[uart.v]
core = "c"
base = 0x10000
output = "other"
"""
TYPED = b"typed!"
INTC, TIMER, UART = 20, 21, 22
IE_ON, IE_OFF, SLEEP = 0x94100002, 0x94110002, 0xBA020004


def write(base, offset, value, register=6):
    return [word("addik", rd=register, low=value), word("swi", rd=register, ra=base, low=offset)]


def start_timer(cycles, status=0xD2):
    """Loads the timer, and lets it count down with what the status says."""
    return write(TIMER, 0x4, cycles) + write(TIMER, 0x0, 0x22) + write(TIMER, 0x0, status)


BASES = [word("imm", low=0x4120), word("addik", rd=INTC), word("imm", low=0x41C0), word("addik", rd=TIMER),
         word("imm", low=0x4060), word("addik", rd=UART)]
LISTEN = write(INTC, 0x8, 3) + write(INTC, 0x1C, 3)  # IER, MER
COUNT = word("addik", rd=2, ra=2, low=1)
ACKNOWLEDGE = write(INTC, 0xC, 3, 28)
BACK = [word("rtid", ra=14), COUNT]
AGAIN = write(TIMER, 0x0, 0x1D2, 28) + ACKNOWLEDGE + BACK
ONCE = write(TIMER, 0x0, 0x100, 28) + ACKNOWLEDGE + BACK
ECHO = [word("lwi", rd=28, ra=UART), word("swi", rd=28, ra=UART, low=4)] + ACKNOWLEDGE + BACK
TYPING = write(UART, 0xC, 0x13)


def read(base, *offsets):
    """Reads registers and sends them."""
    return [part for offset in offsets for part in (word("lwi", rd=3, ra=base, low=offset), SEND)]


COUNTERS, CONTROLLER = (0x0, 0x8, 0x10, 0x18), tuple(range(0, 0x20, 4))
AT_ITS_END = start_timer(2, 0xC2) + [NOTHING] * 6
# more than TX holds, its status, and nothing left
FILL = [word("swi", rd=UART, ra=UART, low=4)] * 20 + [word("lwi", rd=3, ra=UART, low=8)] + write(UART, 0xC, 1)
SLEEPS = [SLEEP] * 3 + [IE_OFF] + SENDS + [END]
OUTSIDE = [word("imm", low=1), word("addik", rd=UART), word("imm"), word("brai", low=0xFFE4)]
WITH_DEVICES = [
    ("a timer that wakes a sleeper", LISTEN + start_timer(40) + [IE_ON] + SLEEPS, [], {HANDLER: AGAIN}),
    ("a timer beside a break", LISTEN + start_timer(40) + [IE_ON] + SLEEPS, [(75, "break"), (76, "nonmaskable")], {HANDLER: AGAIN}),
    ("a timer and a break in one cycle", LISTEN + start_timer(5) + [IE_ON] + [NOTHING] * 20 + [IE_OFF] + SENDS + [END],
     [(21, "break")], {HANDLER: ONCE}),
    ("an interrupt while BIP is set", LISTEN + start_timer(5) + [0x9410000A] + [NOTHING] * 12 + [0x94110008] + [NOTHING] * 4 + SENDS
     + [END], [], {HANDLER: ONCE}),
    ("an interrupt while EIP is set", LISTEN + start_timer(5) + [0x94100202] + [NOTHING] * 12 + [0x94110200] + [NOTHING] * 4 + SENDS
     + [END], [], {HANDLER: ONCE}),
    ("a handler that doesn't acknowledge", LISTEN + start_timer(5) + [IE_ON] + SENDS + [END], [], {HANDLER: BACK}),
    ("a handler that acknowledges before it clears", LISTEN + start_timer(5) + [IE_ON] + [NOTHING] * 20 + [IE_OFF] + SENDS + [END], [],
     {HANDLER: ACKNOWLEDGE + write(TIMER, 0x0, 0x100, 28) + BACK}),
    ("a handler that lets itself in", LISTEN + start_timer(30) + [IE_ON] + SLEEPS, [], {HANDLER: [IE_ON] + AGAIN}),
    ("an end that an interrupt can reach", LISTEN + start_timer(30) + [IE_ON, END], [], {HANDLER: AGAIN}),
    ("an end that none can reach", LISTEN + start_timer(5) + [NOTHING] * 9 + [END], [], {HANDLER: AGAIN}),
    ("a line that goes down before IE is set", LISTEN + start_timer(2) + [NOTHING] * 4 + write(TIMER, 0x0, 0x100) + ACKNOWLEDGE
     + [IE_ON, IE_OFF] + SENDS + [END], [], {HANDLER: AGAIN}),
    ("a wait that a timer breaks off", LISTEN + start_timer(30) + [IE_ON, 0x6C800003], [], {HANDLER: [0x6C028000] + ONCE}),
    ("an atomic wait at rest", LISTEN + start_timer(5) + [IE_ON, 0x6C800803], [], {HANDLER: ONCE}),
    ("a wait after an atomic put", LISTEN + start_timer(30) + [IE_ON, 0x6C038800, 0x6C800003], [], {HANDLER: ONCE}),
    ("requests by software", write(INTC, 0x0, 0x30) + write(INTC, 0x8, 0x20) + write(INTC, 0x1C, 1) + [IE_ON] + SENDS + [IE_OFF, END], [],
     {HANDLER: [word("lwi", rd=3, ra=INTC, low=0x18), SEND] + write(INTC, 0xC, 0x20, 28) + BACK}),
    ("a counter that stands at its end", AT_ITS_END + read(TIMER, 0x0, 0x8) * 2 + [END], [], {}),
    ("a counter that goes on from its end", AT_ITS_END + write(TIMER, 0x0, 0x100) + write(TIMER, 0x0, 0x82) + read(TIMER, 0x0, 0x8) * 2
     + [END], [], {}),
    ("a counter that goes on with ARHT", AT_ITS_END + write(TIMER, 0x0, 0xD2) + read(TIMER, 0x0, 0x8) * 2 + [END], [], {}),
    ("a counter that is loaded at its end", AT_ITS_END + write(TIMER, 0x0, 0xE2) + write(TIMER, 0x0, 0xC2) + read(TIMER, 0x0, 0x8) * 3
     + [END], [], {}),
    ("a counter at its end and ENALL", AT_ITS_END + write(TIMER, 0x0, 0x400) + read(TIMER, *COUNTERS) + write(TIMER, 0x10, 0)
     + read(TIMER, *COUNTERS) + [END], [], {}),
    ("a counter that counts up", write(TIMER, 0x14, -3) + write(TIMER, 0x10, 0x20) + write(TIMER, 0x10, 0xD0)
     + read(TIMER, 0x10, 0x18) * 4 + [END], [], {}),
    ("a TINT that is kept and cleared", AT_ITS_END + write(TIMER, 0x0, 0) + read(TIMER, 0x0) + write(TIMER, 0x0, 0x100) + read(TIMER, 0x0)
     + [END], [], {}),
    ("words that TCSR refuses", [0x94100100]
     + [part for bit in (0x1, 0x8, 0x200, 0x800, 0x1000, -0x8000) for part in write(TIMER, 0x0, 0x80 | bit)]
     + read(TIMER, *COUNTERS) + [END], [], {}),
    ("the registers of the controller", write(INTC, 0x0, 0x5A0) + write(INTC, 0x8, 0xF) + write(INTC, 0x10, 0x580)
     + write(INTC, 0x14, 0x3) + read(INTC, *CONTROLLER)
     + write(INTC, 0xC, 0x80) + write(INTC, 0x1C, -1) + write(INTC, 0x0, 0) + write(INTC, 0x1C, 0) + write(INTC, 0x4, 5)
     + write(INTC, 0x18, 5) + read(INTC, *CONTROLLER) + [END], [], {}),
    ("the registers of a UART", write(UART, 0x4, 0x1FF) + write(UART, 0x8, -1) + write(UART, 0x0, -1) + read(UART, 0x4, 0x8, 0xC)
     + [NOTHING] * 20 + read(UART, 0x8, 0x0) + [END], [], {}),
    ("bytes that are echoed", LISTEN + TYPING + [IE_ON] + [SLEEP] * 4 + [IE_OFF] + SENDS + [END], [], {HANDLER: ECHO}),
    ("bytes that come while none listens", [SLEEP, END], [(250, "break")], {}),
    ("an edge whose input is not enabled", write(INTC, 0x8, 2) + write(INTC, 0x1C, 3) + TYPING + [IE_ON, SLEEP, END], [], {HANDLER: ECHO}),
    ("an edge before the controller listens", TYPING + [NOTHING] * 45 + LISTEN + [IE_ON, SLEEP, END], [], {HANDLER: ECHO}),
    ("a full UART with exceptions on", [0x94100100] + FILL + SENDS + [END], [], {}),
    ("a full UART with exceptions off", FILL + SENDS + [END], [], {}),
    ("an empty UART", [0x94100100] + [word("lwi", rd=3, ra=UART)] * 2 + SENDS + [END], [], {}),
    ("a UART's status", read(UART, 0x8) * 3 + write(UART, 0x4, 0x41) + read(UART, 0x8) * 40 + [END], [], {}),
    ("bytes and halves of a device", [0x94100100, word("sbi", rd=3, ra=UART, low=4), word("lhui", rd=3, ra=UART, low=8),
                                      word("lbui", rd=3, ra=TIMER)] + SENDS + [END], [], {}),
    ("places that no device has", [0x94100100]
     + [word(name, rd=3, ra=base, low=low) for name in ("lwi", "swi") for base in (INTC, TIMER, UART)
        for low in (0x20, 0x1C, 0xC, 0xFFC, -4, 2)] + SENDS + [END], [], {}),
    ("a store to a device in the eight words from the pc after it", OUTSIDE, [],
     {0xFFE4: [word("swi", rd=UART, ra=UART, low=4)] * 2 + [word("lwi", rd=3, ra=UART, low=8), word("brai", low=0x200)], 0x200: SENDS + [END]}),
]
INTERRUPTS = [(f"an interrupt after {cycles} cycles", LISTEN + start_timer(cycles, 0xC2) + [IE_ON] + MIXED[:-1] + [IE_OFF, END], [], {HANDLER: ONCE})
              for cycles in range(0, 90, 2)]


def programs():
    """Each program: its question, words and breaks, the tables of its devices, and more parts."""
    with_devices = [(name, BASES + words, breaks, DEVICES, more) for name, words, breaks, more in WITH_DEVICES + INTERRUPTS]
    return [(*program, "", {}) for program in WITHOUT_DEVICES] + with_devices


def write_board(program, pipeline, folder):
    """Writes a board with its image and inputs; answers the words to run it with."""
    _, words, breaks, devices, more = program
    parts = [elf.Part(at, elf.words(listed)) for at, listed in {0x10: VECTORS, 0x40: words, **more}.items()]
    pathlib.Path(folder, "c.elf").write_bytes(elf.write(elf.Image("big", 0x40, parts)))
    pathlib.Path(folder, "in").write_bytes(board.bytes_of(ITEMS))
    pathlib.Path(folder, "typed").write_bytes(TYPED)
    tables = [f'version = 1\n[core.c]\nimage = "c.elf"\npipeline = "{pipeline}"', '[link.i]\nfrom_file = "in"\nto = "c"\nto_port = 0',
              '[link.o]\ndepth = 1\nfrom = "c"\nfrom_port = 0\nto_file = "out"', devices]
    tables += [f'[event.e{k}]\ncore = "c"\ncycle = {cycle}\nkind = "{kind}"' for k, (cycle, kind) in enumerate(breaks)]
    pathlib.Path(folder, "board.toml").write_text("\n".join(tables))
    return ["run", "board.toml", "--cycles", "300", "--write-journal", "journal"]
