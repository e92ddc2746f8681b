#!/usr/bin/env python3
"""Tests the model of a board by runs whose results were worked out by hand, step by step."""
import pathlib
import sys
import tempfile

import board
import core
import elf

END = 0xB8000000  # bri 0
ONE_CORE = 'version = 1\n[core.c]\nimage = "c.elf"\npipeline = "plain"\n'
OUT = '[link.l]\ndepth = {depth}\nfrom = "c"\nfrom_port = 0\nto_file = "out"\n'


def image_of(listed):
    parts = listed if isinstance(listed, dict) else {0: listed}
    return elf.write(elf.Image("big", 0, [elf.Part(at, elf.words(words)) for at, words in parts.items()]))


def run(text, images, inputs=(), **options):
    """The outcome of a board file; `images` maps a name to words from address 0, to parts of words, or to the bytes of a file."""
    with tempfile.TemporaryDirectory() as folder:
        for name, listed in images.items():
            pathlib.Path(folder, name).write_bytes(listed if isinstance(listed, bytes) else image_of(listed))
        for name, data in dict(inputs).items():
            pathlib.Path(folder, name).write_bytes(data)
        pathlib.Path(folder, "board.toml").write_text(text)
        return board.run(folder, "board.toml", journal="journal", **options)


def check(what, got, wanted):
    assert got == wanted, f"{what}: {got!r}, and not {wanted!r}"


RELAY = {"a.elf": [0x30600007, 0x6C038000, END], "b.elf": [0x6C800000, 0x6C048001, END]}


def relay_text(order="ascending", clocks=(1, 1)):
    return (f'version = 1\norder = "{order}"\n'
            f'[core.a]\nimage = "a.elf"\npipeline = "plain"\nclock = {clocks[0]}\n'
            f'[core.b]\nimage = "b.elf"\npipeline = "plain"\nclock = {clocks[1]}\n'
            '[link.x]\ndepth = 1\nfrom = "a"\nfrom_port = 0\nto = "b"\nto_port = 0\n'
            '[link.y]\ndepth = 1\nfrom = "b"\nfrom_port = 1\nto_file = "out"\n')


def relay():
    cases = [("ascending", (1, 1), (0, 1, 1, 2, 3)), ("descending", (1, 1), (0, 1, 2, 3, 4)),
             ("rotating", (1, 1), (0, 1, 2, 3, 4))]
    cases += [(order, (1, 3), (0, 1, 3, 6, 7)) for order in ("ascending", "descending", "rotating")]
    lines = ("b 0 wait get 0", "a 1 sent 0 0 00000007", "b 0 got 0 0 00000007", "b 1 sent 1 0 00000007", "- 0 hostgot y 0 00000007")
    for order, clocks, cycles in cases:
        done = run(relay_text(order, clocks), RELAY)
        journal = "".join(f"{cycle} {line}\n" for cycle, line in zip(cycles, lines))
        report = (f"status 0 cycles {cycles[-1] + 1} entries 5\ncore a ended pc 00000008 acts 2\ncore b ended pc 00000008 acts 2\n"
                  "link x sent 1 taken 1\nlink y sent 1 taken 1\n")
        check(f"relay {order} {clocks}", (done.status, done.out, done.files),
              (0, report, {"out": bytes([0, 0, 0, 0, 7]), "journal": journal.encode()}))


def profiles():
    """What the ticks of the first of these boards were spent on. `a` acts twice and has ended; `b` waits in the first cycle."""
    with tempfile.TemporaryDirectory() as folder:
        for name, listed in RELAY.items():
            pathlib.Path(folder, name).write_bytes(image_of(listed))
        pathlib.Path(folder, "board.toml").write_text(relay_text())
        done = board.call(folder, ["profile", "board.toml"])
    lines = done.out.splitlines()
    check("profile of relay", (done.status, lines[-2:], done.files), (0, [
        "profile a acted 2 start 0 hold 0 operand 0 redirect 0 divide 0 waiting 0 sleeping 0 done 2",
        "profile b acted 2 start 0 hold 0 operand 0 redirect 0 divide 0 waiting 1 sleeping 0 done 1"], {}))
    check("a profile has no journal file", board.call(".", ["profile", "board.toml", "--write-journal", "out"]).status, 4)


def deferred_breaks(more=""):
    """With more tables that change nothing."""
    words = {0: [0xB8080040], 0x18: [0xB6500000, 0x80000000],
             0x40: [0xB0001234, 0x30605678, 0xB8100008, 0x30800001, 0x80000000, 0x6C038800, 0x6C048000, END]}
    for cycle, taken, r16 in ((2, 3, 0x48), (4, 5, 0x50), (6, 8, 0x5C)):
        event = f'[event.e]\ncore = "c"\ncycle = {cycle}\nkind = "break"\n'
        done = run(ONE_CORE + OUT.format(depth=16) + event + more, {"c.elf": words})
        check("deferred break", (done.status, done.files["out"]), (0, bytes.fromhex("00 12345678 00 00000001")))
        took = [line for line in done.files["journal"].decode().splitlines() if "took" in line]
        # no act before the break is missed, so its number is that of its cycle
        check("its take", took, [f"{taken} c {taken} took break"])
        check("its register", break_register(words, cycle), r16)


def break_register(words, cycle):
    """r16 at the end of a run with one break."""
    memory = bytearray(65_536)
    for at, listed in words.items():
        memory[at:at + 4 * len(listed)] = elf.words(listed)
    ports, out = board.Ports(), board.Link("l", 16, to_file="out")
    ports.puts[0], one = out, core.Core(memory)
    board.Board([("c", 1, one, ports)], [out], [(ports, cycle, "break")]).run()
    return one.r[16]


def cross_wait():
    text = ('version = 1\n[core.a]\nimage = "w.elf"\npipeline = "plain"\n[core.b]\nimage = "w.elf"\npipeline = "plain"\n'
            '[link.ab]\nfrom = "a"\nfrom_port = 0\nto = "b"\nto_port = 0\n[link.ba]\nfrom = "b"\nfrom_port = 0\nto = "a"\nto_port = 0\n'
            '[link.p]\nfrom = "a"\nfrom_port = 1\nto_file = "p"\n[link.q]\nfrom = "b"\nfrom_port = 1\nto_file = "q"\n')
    done = run(text, {"w.elf": [0x6C800000]})
    check("cross-wait", done.out.splitlines()[:3],
          ["status 1 cycles 0 entries 0", "core a waits get 0 pc 00000000 acts 0", "core b waits get 0 pc 00000000 acts 0"])
    check("its files", (done.status, done.files), (1, {"p": b"", "q": b"", "journal": b""}))


def control_bits():
    done = run(ONE_CORE + OUT.format(depth=1), {"c.elf": [0x30600001, 0x6C038000, 0x6C03A000, 0x6C038000, END]})
    check("control bits", (done.status, done.files["out"]), (0, bytes.fromhex("0000000001 0100000001 0000000001")))
    ports, given = board.Ports(), board.Link("l", 16, [(1, 0x2A)])
    ports.gets[2], one = given, core.Core(bytearray(elf.words([0x94100100, 0x6C800402]) + bytes(65_528)))
    machine = board.Board([("c", 1, one, ports)], [given], [])
    for _ in range(2):
        machine.do_cycle()
    check("a control exception", (one.esr, one.edr, one.msr, one.r[4], one.r[17], one.pc), (0x40, 0x2A, 0x210, 0, 8, 0x20))
    check("its entries", machine.journal, ["0 - 0 hostsent l 1 0000002A\n", "1 c 1 got 2 1 0000002A\n", "1 c 1 raised 00000040\n"])


def journal_full():
    done = run(relay_text(), RELAY, entries=0)
    check("no journal", (done.status, done.out.splitlines()[0]), (10, "status 10 cycles 0 entries 0"))
    check("room for one cycle", run(relay_text(), RELAY, entries=12).out.splitlines()[0], "status 10 cycles 1 entries 1")
    done = run(relay_text(), RELAY, cycles=0, entries=0)
    check("the limit first", (done.status, done.out.splitlines()[0]), (3, "status 3 cycles 0 entries 0"))


def load_chain():
    words = {0: [0x30600040] + 10 * [0xE8630000] + [END], 0x40: [0x40]}
    done = run(ONE_CORE, {"c.elf": words})
    check("a chain of loads", done.out, "status 0 cycles 11 entries 0\ncore c ended pc 0000002C acts 11\n")


def endless_put(entries):
    """Two entries in two cycles from cycle 1 on, until fewer than six are spare: the item of an even cycle has left."""
    status, out, machine = board.raw(elf.words([0x30600001, 0x6C038000, 0xB800FFFC]), 10_000_000, entries)
    check("an endless put", (status, machine.cycle, len(machine.journal)), (10, entries - 4, entries - 5))
    check("its items", out, "0 00000001\n" * ((entries - 5) // 2))


def refusals():
    bad_input = ONE_CORE + '[link.l]\nfrom_file = "in"\nto = "c"\nto_port = 0\n'
    done = run(bad_input, {"c.elf": [END]}, {"in": bytes([0, 0, 0, 0, 1, 0, 0])})
    check("a cut item", (done.status, done.err), (13, "mbsim: input in at 5\n"))

    check("no image", (run(ONE_CORE, {}).status, run(ONE_CORE, {}).err), (5, "mbsim: cannot read c.elf\n"))
    check("an image too low", run(ONE_CORE, {"c.elf": {0xFFFC: [0, 0]}}).err, "mbsim: image of c 709 at 0\n")


def images():
    """The tests of an image whose program headers stand at 52."""
    whole = elf.write(elf.Image("big", 0, [elf.Part(0, bytes(8))]))
    check("a file of one part", len(whole), 92)
    twice = elf.write(elf.Image("big", 0, [elf.Part(0, bytes(8)), elf.Part(4, bytes(8))]))
    high = elf.write(elf.Image("big", 0xFFFC, [elf.Part(0xFFFC, bytes(8))]))
    for data, code, at in ((whole[:60], 706, 52), (b"", 701, 0), (twice, 711, 1), (high, 709, 0)):
        try:
            elf.read(data, 65_536)
            raise AssertionError("read")
        except elf.Refused as refused:
            check("an image", (refused.code, refused.at), (code, at))
    for machine in (b"\0\xbd", b"\xba\xab"):
        check("its machine", elf.read(whole[:18] + machine + whole[20:], 65_536).entry, 0)


def main(words):
    """The first word, if any, is the size of the journal of the endless put."""
    entries = int(words[0]) if words else 4_096
    for test in (relay, profiles, deferred_breaks, cross_wait, control_bits, journal_full, load_chain, refusals, images):
        test()
    endless_put(entries)
    print("board model: all worked runs agree")


if __name__ == "__main__":
    main(sys.argv[1:])
