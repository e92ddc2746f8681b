#!/usr/bin/env python3
"""Tests the devices of the model, alone and on boards, by runs whose results were worked out by hand, step by step."""
import struct

import devices
import elf
import test_board
from directed_boards import word
from random_boards import END, NOTHING
from test_board import OUT, check, run

INTC, TIMER, UART = 0x4120, 0x41C0, 0x4060
# what `run` starts at 0, to have room for the vectors
TO_MAIN = [0xB8080040]


def core_text(pipeline="plain", version=1):
    return f'version = {version}\n[core.c]\nimage = "c.elf"\npipeline = "{pipeline}"\n'


def device_text(kind, upper, **keys):
    rows = [f"{key} = {value if type(value) is int else repr(value)}" for key, value in keys.items()]
    return "\n".join([f"[{kind}.{kind[0]}]", 'core = "c"', f"base = {upper << 16}", *rows, ""])


def to_register(rd, upper):
    """Puts the base of a device into a register."""
    return [word("imm", low=upper), word("addik", rd=rd)]


def journal_of(done):
    return done.files["journal"].decode().splitlines()


# devices alone

def refuses(device, *access):
    try:
        device.access(*access)
    except devices.BadAccess:
        return True
    return False


def timer_reload():
    timer = devices.Timer()
    timer.access(0x4, 3)
    timer.access(0x0, 0x22)
    timer.cycle()
    check("a loaded count", timer.access(0x8), 3)
    timer.access(0x0, 0xD2)
    seen = []
    for _ in range(6):
        timer.cycle()
        seen.append((timer.access(0x8), timer.access(0x0) >> 8 & 1, timer.line))
    check("its cycles", seen, [(2, 0, False), (1, 0, False), (0, 0, False), (0xFFFFFFFF, 1, True), (3, 1, True), (2, 1, True)])
    timer.access(0x0, 0x1D2)
    check("a cleared TINT", (timer.access(0x0), timer.line), (0xD2, False))
    timer.access(0x0, 0xA2)
    for _ in range(2):
        timer.cycle()
        check("LOAD goes before ENT", timer.access(0x8), 3)


def timer_bits():
    timer = devices.Timer()
    for bit in (0x001, 0x008, 0x200, 0x800, 0x1000, 0x80000000):
        check("a refused bit", refuses(timer, 0x10, bit | 0x80), True)
    check("refused places", [refuses(timer, offset) for offset in (0xC, 0x1C, 0x1, 0xFFC)], [True] * 4)
    timer.access(0x0, 0x82)
    for _ in range(3):
        timer.cycle()
    check("a counter that stands at its end", (timer.access(0x8), timer.access(0x0)), (0xFFFFFFFF, 0x182))
    timer.access(0x0, 0x400)
    timer.cycle()
    check("ENALL sets ENT in both, so the first still stands", [timer.access(offset) for offset in (0x0, 0x8, 0x10, 0x18)],
          [0x580, 0xFFFFFFFF, 0x480, 1])
    timer.access(0x10, 0)
    check("ENALL as 0 leaves ENT of the other", (timer.access(0x0), timer.access(0x10)), (0x180, 0))
    timer.access(0x0, 0x100)
    timer.access(0x0, 0x80)
    timer.cycle()
    check("a counter that goes on from its end", (timer.access(0x8), timer.access(0x0), timer.line), (0, 0x180, False))


def intc_acknowledge():
    asking = devices.Timer()
    for offset, value in ((0x4, 0), (0x0, 0xC2)):
        asking.access(offset, value)
    asking.cycle()
    intc = devices.Controller([(0, asking)])
    intc.access(0x8, 1)
    intc.access(0x1C, 1)
    intc.cycle()
    check("an input without HIE", (intc.access(0x0), intc.line), (0, False))
    intc.access(0x1C, 3)
    intc.cycle()
    check("an input", [intc.access(offset) for offset in (0x0, 0x4, 0x18)] + [intc.line], [1, 1, 0, True])
    intc.access(0xC, 1)
    check("acknowledged", (intc.access(0x0), intc.line), (0, False))
    intc.cycle()
    check("a level that is still high", intc.line, True)


def intc_registers():
    intc = devices.Controller()
    intc.access(0x0, 0x90)
    intc.access(0x1C, 1)
    check("ISR alone makes no line", intc.line, False)
    intc.access(0x10, 0xFFFFFFFF)
    check("two requests", (intc.access(0x18), intc.line), (4, True))
    intc.access(0x14, 0x10)
    check("ISR, IPR, IER, IVR", [intc.access(offset) for offset in (0x0, 0x4, 0x8, 0x18)], [0x90, 0x80, 0xFFFFFFEF, 7])
    check("what reads 0", [intc.access(offset) for offset in (0xC, 0x10, 0x14)], [0, 0, 0])
    for value, mer in ((0xFFFFFFFC, 0), (2, 2), (1, 3), (0, 2)):
        intc.access(0x1C, value)
        check("HIE stays", intc.access(0x1C), mer)
    intc.access(0x0, 5)
    check("ISR with HIE", intc.access(0x0), 0x90)
    intc.access(0x8, 0)
    check("no interrupt", intc.access(0x18), 0xFFFFFFFF)
    check("refused places", [refuses(intc, offset) for offset in (0x20, 0x2, 0x100)], [True] * 3)


def uart_full():
    uart = devices.Uart()
    check("STAT", uart.access(0x8), 4)
    for number in range(16):
        check("a write of TX", uart.access(0x4, 0x141 + number), 0)
    check("full", (uart.access(0x8), refuses(uart, 0x4, 0), uart.access(0x8), refuses(uart, 0x0)), (8, True, 8, True))
    check("what leaves", [uart.cycle(number) for number in range(17)], list(range(0x41, 0x51)) + [None])
    check("refused places", [refuses(uart, offset) for offset in (0x10, 0x3)], [True] * 2)


def uart_overrun():
    uart = devices.Uart(given=bytes(range(17)))
    for number in range(17):
        uart.cycle(number)
    check("an overrun, told once", (uart.access(0x8), uart.access(0x8)), (0x27, 7))
    check("what arrived", [uart.access(0x0) for _ in range(16)] + [refuses(uart, 0x0)], list(range(16)) + [True])


def uart_edges():
    uart = devices.Uart(every=2, given=b"abc")
    uart.access(0xC, 0x10)
    lines = []
    for number in range(6):
        if number == 3:
            uart.access(0x0)  # so that the next byte finds RX empty again, and TX isn't
            uart.access(0x0)
            uart.access(0x4, 1)
            uart.access(0x4, 2)
        uart.cycle(number)
        lines.append(uart.answer())
    check("edges at a first byte, and no other", lines, [True, False, False, False, True, False])
    uart.access(0xC, 0x13)
    uart.cycle(6)
    check("none where a queue was emptied", (uart.access(0x8), uart.answer()), (0x14, False))
    uart.access(0x4, 3)
    uart.cycle(8)
    check("one where the last byte left", (uart.answer(), uart.left), (True, bytes([1, 3])))


def uart_holds():
    """An edge is held until a controller moves, which sees one high input; two edges before that are one."""
    uart = devices.Uart(given=b"ab")
    uart.access(0xC, 0x10)
    uart.cycle(0)
    uart.access(0x0)
    uart.cycle(1)
    intc = devices.Controller([(5, uart)])
    intc.access(0x1C, 2)
    seen = []
    for _ in range(2):
        intc.cycle()
        seen.append(intc.access(0x0))
        intc.access(0xC, 0x20)
    check("an edge that is held", seen, [0x20, 0])
    uart.access(0x0)
    uart.access(0x4, 1)
    uart.cycle(2)
    deaf = devices.Controller([(5, uart)])
    deaf.cycle()
    deaf.access(0x1C, 2)
    deaf.cycle()
    check("an edge that a controller without HIE has passed over", deaf.access(0x0), 0)


# boards

INTERRUPTED = {0: TO_MAIN, 0x10: [0x6C038000, 0x6C0E8000, END], 0x40: [
    0xB0004120, 0x30600000, 0xB00041C0, 0x30800000, 0x30A00001, 0x30C00003, 0xF8A30008, 0xF8C3001C, 0xF8A40004, 0x30E00020, 0xF8E40000,
    0x30E000D2, 0x94100002, 0xF8E40000, 0xB0001234, 0x30605678, END]}
STORES = ("41200008 00000001", "4120001C 00000003", "41C00004 00000001", "41C00000 00000020", "41C00000 000000D2")


def interrupted(pipeline, version=1, **keys):
    text = core_text(pipeline, version) + OUT.format(depth=16) + device_text("intc", INTC) + device_text("timer", TIMER, irq=0, **keys)
    return run(text, {"c.elf": INTERRUPTED})


def timer_interrupt():
    """On three a store takes two ticks, so the interrupt comes before the prefix; on the others a prefix holds it off."""
    for pipeline, cycles, lineup, act, stores, sends in (("plain", 21, 16, 16, (7, 8, 9, 11, 14), (18, 19)),
                                                         ("three", 30, 24, 15, (11, 13, 15, 18, 22), (27, 28))):
        done = interrupted(pipeline)
        late, words = (1, ("12345678", "00000080")) if pipeline == "plain" else (0, ("41200000", "00000078"))
        taken, took = act + late, lineup + late
        wanted = [f"{cycle} c {number} wrote {told}" for cycle, number, told in zip(stores, (7, 8, 9, 11, 14), STORES)]
        wanted += [f"{lineup} c {act} lineup", f"{took} c {taken} took interrupt"]
        for number, (sent, told) in enumerate(zip(sends, words), taken + 1):
            wanted += [f"{sent} c {number} sent 0 0 {told}", f"{sent + 1} - 0 hostgot l 0 {told}"]
        report = f"status 0 cycles {cycles} entries 11\ncore c ended pc 00000018 acts {taken + 3}\nlink l sent 2 taken 2\n"
        check(f"a timer's interrupt on {pipeline}", (done.out, journal_of(done)), (report, wanted))
        check("its file", (done.status, done.files["out"]), (0, bytes.fromhex("00" + words[0] + "00" + words[1])))
    for pipeline in ("five", "eight"):
        done = interrupted(pipeline)
        check(f"the same on {pipeline}", (done.status, done.files["out"]), (0, bytes.fromhex("00123456780000000080")))


def slow_timer():
    """The timer of the first run moves in each third cycle: it loads in cycle 12, stands at 0 behind cycle 15's move and is past
    its end in cycle 18."""
    done = interrupted("plain", version=2, clock=3)
    wanted = [f"{cycle} c {cycle} wrote {told}" for cycle, told in zip((7, 8, 9, 11, 14), STORES)]
    wanted += ["18 c 18 lineup", "18 c 18 took interrupt", "19 c 19 sent 0 0 12345678", "20 - 0 hostgot l 0 12345678",
               "20 c 20 sent 0 0 00000080", "21 - 0 hostgot l 0 00000080"]
    report = "status 0 cycles 22 entries 11\ncore c ended pc 00000018 acts 21\nlink l sent 2 taken 2\n"
    check("a timer with a clock", (done.out, journal_of(done)), (report, wanted))
    check("its file", (done.status, done.files["out"]), (0, bytes.fromhex("00123456780000000080")))


def slow_controller():
    """A controller that moves in each tenth cycle sees the timer's level then; its line goes down in the cycle after a store, and up
    again at its next move."""
    text = core_text(version=2) + device_text("intc", INTC, clock=10) + device_text("timer", TIMER, irq=0)
    acknowledge = [word("addik", rd=6, low=1), word("swi", rd=6, ra=3, low=0xC)] + [NOTHING] * 8 + [END]
    main = INTERRUPTED[0x40][:14] + [NOTHING] * 9 + acknowledge
    done = run(text, {"c.elf": {0: TO_MAIN, 0x10: [END], 0x40: [one if one != 0x94100002 else NOTHING for one in main]}}, cycles=40)
    wanted = [f"{cycle} c {cycle} wrote {told}" for cycle, told in zip((7, 8, 9, 11, 14), STORES)]
    wanted += ["20 c 20 lineup", "25 c 25 wrote 4120000C 00000001", "26 c 26 linedown", "30 c 30 lineup"]
    check("a controller with a clock", journal_of(done), wanted)


def with_sections(image):
    """A little-endian image with a symbol table and its names behind it, as a linker leaves them."""
    names, table = b"\0main\0", bytes(16) + struct.pack("<IIIBBH", 1, 0x50, 0, 18, 0, 1)
    rows = [(0,) * 10, (0, 2, 0, 0, len(image), len(table), 2, 1, 4, 16), (0, 3, 0, 0, len(image) + len(table), len(names), 0, 0, 1, 0)]
    place = len(image) + len(table) + len(names)
    header = bytearray(image[:52])
    struct.pack_into("<I", header, 32, place)
    struct.pack_into("<HHH", header, 46, 40, len(rows), 2)
    return bytes(header) + image[52:] + table + names + b"".join(struct.pack("<10I", *row) for row in rows)


def polled_uart():
    """An image as the GNU tools lay one out, with its vectors at 0 and a bss. It sends three bytes, each where STAT tells room. The
    first cycle of the UART with a byte to send is number 64."""
    send = [word("lwi", rd=4, ra=3, low=8), word("andi", rd=4, ra=4, low=8), word("bnei", ra=4, low=-8)]
    main = to_register(3, UART)
    for letter in b"Hi\n":
        main += send + [word("addik", rd=5, low=letter), word("swi", rd=5, ra=3, low=4)]
    parts = [elf.Part(0, elf.words([0xB8080050], "little")), elf.Part(0x50, elf.words(main + [END], "little"), 64)]
    image = with_sections(elf.write(elf.Image("little", 0, parts)))
    done = run(core_text() + device_text("uart", UART, output="out"), {"c.elf": image})
    wanted = ["3 c 3 read 40600008 00000004", "7 c 7 wrote 40600004 00000048", "8 c 8 read 40600008 00000000", "12 c 12 wrote 40600004 00000069",
              "13 c 13 read 40600008 00000000", "17 c 17 wrote 40600004 0000000A", "64 - 0 left u 48", "128 - 0 left u 69", "192 - 0 left u 0A"]
    check("a polled UART", (done.status, done.files["out"], journal_of(done)), (0, b"Hi\n", wanted))
    check("its report", done.out, "status 0 cycles 193 entries 9\ncore c ended pc 00000094 acts 18\nuart u left 3\n")


def woken_by_a_byte():
    """The first byte comes in cycle 0, before the core asks, and is thrown away; the second in cycle 32 wakes it."""
    handler = [word("lwi", rd=5, ra=3), word("put", ra=5), word("swi", rd=8, ra=4, low=0xC), word("rtid", ra=14), NOTHING]
    main = to_register(3, UART) + to_register(4, INTC) + [
        word("addik", rd=8, low=8), word("swi", rd=8, ra=4, low=8), word("addik", rd=6, low=3), word("swi", rd=6, ra=4, low=0x1C),
        word("addik", rd=7, low=0x12), word("swi", rd=7, ra=3, low=0xC), 0x94100002, 0xBA020004, 0x94110002, END]
    text = core_text() + OUT.format(depth=1) + device_text("intc", INTC) + device_text("uart", UART, output="u", input="in", every=32, irq=3)
    done = run(text, {"c.elf": {0: TO_MAIN, 0x10: handler, 0x40: main}}, {"in": b"xA"})
    wanted = ["6 c 6 wrote 41200008 00000008", "8 c 8 wrote 4120001C 00000003", "10 c 10 wrote 4060000C 00000012", "12 c 12 slept",
              "32 c 13 lineup", "32 c 13 took interrupt", "33 c 14 read 40600000 00000041", "34 c 15 sent 0 0 00000041",
              "35 - 0 hostgot l 0 00000041", "35 c 16 wrote 4120000C 00000008", "36 c 17 linedown"]
    check("a sleeper that a byte wakes", (done.status, done.files["out"], journal_of(done)), (0, bytes([0, 0, 0, 0, 0x41]), wanted))
    check("its report", done.out, "status 0 cycles 39 entries 11\ncore c ended pc 00000074 acts 20\nlink l sent 1 taken 1\nuart u left 0\n")


def running_timer():
    """A timer that runs for ever keeps no board from rest; a core that an interrupt can reach does."""
    start = to_register(3, TIMER) + [word("addik", rd=5, low=0xD2), word("swi", rd=5, ra=3)]
    timer, intc = device_text("timer", TIMER), device_text("intc", INTC)
    for what, text, main, status, cycles, end in (
            ("no controller", timer, start + [0x94100002], 0, 5, "ended pc 00000014 acts 5"),
            ("IE clear", timer + intc, start, 0, 4, "ended pc 00000010 acts 4"),
            ("IE set", timer + intc, start + [0x94100002], 3, 50, "runs pc 00000014 acts 50")):
        done = run(core_text() + text, {"c.elf": main + [END]}, cycles=50)
        check(what, (done.status, done.out), (status, f"status {status} cycles {cycles} entries 1\ncore c {end}\n"))


def bus_faults():
    """A refused word has an entry of its own before the fault; a byte or half never gets to the bus."""
    handler = [word("rted", ra=17), NOTHING]
    main = to_register(3, UART) + [0x94100100, word("lwi", rd=4, ra=3), word("swi", rd=4, ra=3, low=0x10), word("lbui", rd=4, ra=3, low=8),
                                   word("shi", rd=4, ra=3, low=4), word("lwi", rd=4, ra=3, low=8), END]
    done = run(core_text() + device_text("uart", UART, output="u"), {"c.elf": {0: TO_MAIN, 0x20: handler, 0x40: main}})
    wanted = ["4 c 4 readrefused 40600000", "4 c 4 raised 00000004", "7 c 7 writerefused 40600010 00000000", "7 c 7 raised 00000004",
              "10 c 10 raised 00000004", "13 c 13 raised 00000004", "16 c 16 read 40600008 00000004"]
    check("bus faults", (done.status, journal_of(done)), (0, wanted))


def refusals():
    text = core_text() + '[link.l]\nfrom_file = "li"\nto = "c"\nto_port = 0\n' + device_text("uart", UART, output="u", input="ui")
    for inputs, err in (({}, "cannot read li"), ({"li": b"\1"}, "input li at 0"), ({"li": b""}, "cannot read ui"),
                        ({"li": b"", "ui": bytes(4_194_305)}, "ui is too long")):
        check("an input", run(text, {"c.elf": [END]}, inputs).err, f"mbsim: {err}\n")


def main():
    for test in (timer_reload, timer_bits, intc_acknowledge, intc_registers, uart_full, uart_overrun, uart_edges, uart_holds, timer_interrupt,
                 slow_timer, slow_controller, polled_uart,
                 woken_by_a_byte, running_timer, bus_faults, refusals):
        test()
    test_board.deferred_breaks(device_text("intc", INTC))
    print("devices of the model: all worked runs agree")


if __name__ == "__main__":
    main()
