#!/usr/bin/env python3
"""Tests the model of time by runs whose ticks were worked out by hand from the table of times."""
import random
import re

import board
import core
import directed_boards
import elf
import stages
import timing
from program import TOP
from random_boards import VECTORS
from test_board import END, RELAY, check, relay_text, run

PLAIN, THREE, FIVE, EIGHT = timing.PIPELINES
LOADS = [0x30600040] + 10 * [0xE8630000] + [END] + 4 * [0] + [0x40]  # r3 = 40 hex; ten times lwi r3, r3, 0, of the word 40 there
DIVIDE = [0x30600003, 0x3080000F, 0x48A32000, 0x30C50001, END]  # r6 = 15 / 3 + 1
LOOP = [0x30600003, 0x3063FFFF, 0xBC23FFFC, END]  # r3 counted down from 3
PATCH = [0xB0003080, 0x30600007, 0xF8600010, 0x80000000, 0x30800001, 0x6C048000, END]  # stores addik r4, r0, 7 over the word at 10
SHIFTS = [0x30600001, 0x64630401, 0x64630401, END]  # r3 shifted left twice
LAST_VALUE = [0x30600001, 0x30600002, 0x6C038000, END]  # two values of r3, and a put
# the program of docs/PIPELINES.md, with the word 5 at 28 hex
TICK_BY_TICK = [0xE8600028, 0x30830001, 0x64A40402, 0xF8A00030, 0xB810000C, 0x30C50001, 0x30C00000, 0x6C068000, END, 0, 5]
DOCUMENT = TOP / "docs/PIPELINES.md"


class Alone:
    """A core of a pipeline with a memory of words, put port 0 to a file, items for get port 0, and breaks, run to its end. In each
    tick the stages of the pipeline give the due tick that the table gives."""

    def __init__(self, pipeline, words, breaks=(), parts=(), items=(), limit=board.CYCLES):
        memory = bytearray(4096)
        for at, listed in ((0, words), *parts):
            memory[at:at + 4 * len(listed)] = elf.words(listed)
        ports, out, given = board.Ports(), board.Link("l", 16, to_file="out"), board.Link("g", 16, items)
        ports.puts[0], ports.gets[0] = out, given
        self.core = core.Core(memory, pipeline=pipeline)
        self.waited = []  # what each tick without an act waited for
        self.acted_in = []  # the ticks of the acts
        self.stages = None if pipeline == PLAIN else stages.Stages(pipeline)
        self.board = board.Board([("c", 1, self, ports)], [given, out], [(ports, cycle, kind) for cycle, kind in breaks])
        self.status = self.board.run(limit)
        self.items = [word for _, word in out.left]

    def tick(self, ports):
        one = self.core
        tick, (name, read), in_slot, past = one.ticks, one.operands_here(), one.slot is not None, one.past
        if self.stages:
            check(f"the stages of {one.pipeline} in tick {tick}", self.stages.due_tick(name, read, in_slot), one.due_tick())
        done = one.tick(ports)
        if done[0]:
            self.acted_in.append(tick)
            if self.stages:
                self.stages.do(one.done)
        elif not one.idle(ports):
            self.waited.append(timing.reason(one.pipeline, past, tick, read, in_slot))
        return done

    def idle(self, ports):
        return self.core.idle(ports)

    @property
    def spent(self):
        return self.core.spent

    @property
    def ticks(self):
        return self.core.ticks

    def came_to(self):
        return self.status, self.board.cycle, len(self.acted_in)


def cycles():
    """Status, cycles and acts of each program on each pipeline."""
    rows = [("a chain of loads", LOADS, 11, (11, 22, 23, 50)), ("a division", DIVIDE, 4, (4, 39, 40, 40)),
            ("a loop", LOOP, 7, (7, 13, 14, 14)), ("a word that is patched", PATCH, 6, (7, 11, 13, 13)),
            ("two shifts", SHIFTS, 3, (3, 6, 7, 9))]
    for what, words, acts, on_each in rows:
        for pipeline, wanted in zip(timing.PIPELINES, on_each):
            check(f"{what} on {pipeline}", Alone(pipeline, words).came_to(), (0, wanted, acts))


def results():
    for pipeline in timing.PIPELINES:
        for what, words, register, value in (("loads", LOADS, 3, 0x40), ("division", DIVIDE, 6, 6), ("shifts", SHIFTS, 3, 4)):
            check(f"result of {what} on {pipeline}", Alone(pipeline, words).core.r[register], value)
        check(f"patched on {pipeline}", Alone(pipeline, PATCH).items, [7])
        check(f"last value on {pipeline}", Alone(pipeline, LAST_VALUE).items, [2])


def profiles():
    """What the ticks of each program were spent on."""
    rows = [("loads", LOADS, 11, {THREE: {"start": 2, "hold": 9}, FIVE: {"start": 3, "operand": 9}, EIGHT: {"start": 3, "operand": 36}}),
            ("division", DIVIDE, 4, {FIVE: {"start": 3, "divide": 33}}), ("loop", LOOP, 7, {FIVE: {"start": 3, "redirect": 4}}),
            # in the cycle in which the host takes its item, the core has ended
            ("the program of the document", TICK_BY_TICK, 7, {
                PLAIN: {"done": 1}, THREE: {"start": 2, "hold": 2, "operand": 1, "redirect": 1, "done": 1},
                FIVE: {"start": 3, "operand": 2, "redirect": 1, "done": 1}, EIGHT: {"start": 3, "operand": 7, "redirect": 1, "done": 1}})]
    for what, words, acts, on_some in rows:
        for pipeline, wanted in on_some.items():
            counts = {what: count for what, count in Alone(pipeline, words).board.profiles[0].items() if count}
            check(f"profile of {what} on {pipeline}", counts, {"acted": acts, **wanted})


def two_loads():
    check("two loads on eight", Alone(EIGHT, [0xE863000C, 0xE863000C, END, 0]).acted_in, [3, 8])


def missed_gets():
    """nget r3, rfsl0, put r3, rfsl0: a get that misses leaves rD as it was, and late."""
    for pipeline, wanted in zip(timing.PIPELINES, ([0, 1], [2, 4], [3, 5], [3, 8])):
        check(f"a missed get on {pipeline}", Alone(pipeline, [0x6C604000, 0x6C038000, END]).acted_in, wanted)


def due_ticks():
    load = timing.Act(4, "lwi", 3)
    check("a first load", timing.due_tick(EIGHT, [], "lwi", {3}), 3)
    check("a load of a load", timing.due_tick(EIGHT, [load], "lwi", {3}), 9)
    check("a sum behind a load", timing.due_tick(EIGHT, [load], "addik"), 5)
    turn = [timing.Act(7)]
    check("behind a take", [timing.due_tick(pipeline, turn) for pipeline in (THREE, FIVE)], [10, 11])
    branch = [timing.Act(3, "brid", jump="taken")]
    check("behind a branch", [timing.due_tick(FIVE, branch, "addik", in_slot=slot) for slot in (True, False)], [4, 6])


def operands():
    """The registers that words read: r4 stands in the field of rD, r5 in that of rA and r6 in that of rB."""
    rows = [("add", 0x00853000, {5, 6}), ("addik", 0x30850001, {5}), ("sw", 0xD8853000, {4, 5, 6}), ("swi", 0xF8850001, {4, 5}),
            ("lw", 0xC8853000, {5, 6}), ("wdc", 0x90053064, {5, 6}), ("put", 0x6C058000, {5}), ("put", 0x6C059000, {5}),
            ("get", 0x6C800000, set()), ("getd", 0x4C803000, {6}), ("putd", 0x4C053400, {5, 6}), ("mts rmsr", 0x9405C001, {5}),
            ("msrset", 0x94900001, set()), ("bslli", 0x64850401, {5}), ("brld", 0x98943000, {6}), ("beq", 0x9C053000, {5, 6}),
            ("rtsd", 0xB6050008, {5}), ("imm", 0xB0000001, set()), ("add", 0x00800000, set())]
    for name, word, wanted in rows:
        found, form = core.decode(word)
        check(f"{word:08X}", (found, timing.reads(found, form, word)), (name, wanted))


def deferred_breaks():
    """A break waits behind a prefix, a slot and an atomic put; what it sends is the same on all pipelines."""
    parts = [(0x18, [0xB6500000, 0x80000000]),
             (0x40, [0xB0001234, 0x30605678, 0xB8100008, 0x30800001, 0x80000000, 0x6C038800, 0x6C048000, END])]
    for pipeline in timing.PIPELINES:
        for cycle in (2, 4, 6):
            done = Alone(pipeline, [0xB8080040], [(cycle, "break")], parts)
            check(f"a deferred break on {pipeline}", (done.status, done.items), (0, [0x12345678, 1]))


def takes():
    """A take waits for no number of the table: not for the first tick, a load's hold or a division."""
    for pipeline in timing.PIPELINES:
        done = Alone(pipeline, [END], [(0, "nonmaskable")], [(0x18, [0xB6500000, 0x80000000])])
        check(f"a take of cycle 0 on {pipeline}", done.acted_in[0], 0)
    # on three the word 0 acts in tick 2 and the next in 4; behind the break of 3, the word at 18 is due at 3 + 3
    done = Alone(THREE, [0xE8600100, 0x80000000, END], [(3, "nonmaskable")], [(0x18, [0xB6500000, 0x80000000])])
    check("a take in a hold", done.acted_in[:3], [2, 3, 6])
    # on five the division at 8 would act at 5 + 1 + 33
    done = Alone(FIVE, DIVIDE, [(20, "nonmaskable")], [(0x18, [0xB6500000, 0x80000000])])
    check("a take in a division", done.acted_in[:4], [3, 4, 20, 24])


def relay():
    for first in timing.PIPELINES:
        for second in timing.PIPELINES:
            text = relay_text().replace('"plain"', f'"{first}"', 1).replace('"b.elf"\npipeline = "plain"', f'"b.elf"\npipeline = "{second}"')
            done = run(text, RELAY)
            check(f"relay of {first} and {second}", (done.status, done.files["out"]), (0, bytes([0, 0, 0, 0, 7])))


def document():
    """The table of docs/PIPELINES.md is the model's, and so are the ticks of its program."""
    rows = [tuple(map(int, row)) for row in re.findall(r"^\|.+" + 4 * r"\| (\d+) " + r"\|$", DOCUMENT.read_text(), re.MULTILINE)]
    check("the table", rows, [
        timing.FIRST_TICK, timing.HOLD_OF_LOADS_AND_STORES, timing.HOLD_OF_OTHERS, timing.READY_OF_LOADS_AND_GETS,
        timing.READY_OF_MULTIPLY_AND_BARREL, timing.READY_OF_OTHERS, timing.EXTRA_OF_DIVIDES, timing.REDIRECT_AFTER_A_BRANCH,
        timing.REDIRECT_AFTER_A_TRAP_OR_STRIKE])
    charts = re.findall(r"^    (plain|three|five|eight) +((?: *[A-Gshord])+)$", DOCUMENT.read_text(), re.MULTILINE)
    check("its charts", [pipeline for pipeline, _ in charts], list(timing.PIPELINES))
    for pipeline, chart in charts:
        done = Alone(pipeline, TICK_BY_TICK)
        acts, waited = iter("ABCDEFG"), iter(done.waited)
        ticks = [next(acts) if tick in done.acted_in else next(waited)[0] for tick in range(done.acted_in[-1] + 1)]
        check(f"the program tick by tick on {pipeline}", (chart.split(), done.items), (ticks, [25]))


def stages_agree():
    """The directed programs, with their breaks, go through the stages as the table says: `Alone` looks in each tick."""
    for what, words, breaks in directed_boards.WITHOUT_DEVICES:
        for pipeline in timing.PIPELINES[1:]:
            done = Alone(pipeline, [0xB8080040], breaks, [(0x10, VECTORS), (0x40, words)], directed_boards.ITEMS, 150)
            assert done.acted_in, what


def old_acts():
    """The last `REACH` acts give what all of them give."""
    chance = random.Random(1)
    for _ in range(2_000):
        tick, acts = 0, []
        for _ in range(chance.randrange(20)):
            tick += chance.choice((1, 1, 1, 2, 3))
            name, jump = chance.choice([(None, None), ("bri", "taken"), ("swi", "struck"), ("get", None), ("mul", None), ("addik", None)])
            acts.append(timing.Act(tick, name, name and chance.randrange(4), jump))
        for pipeline in timing.PIPELINES:
            what = ("addik", {chance.randrange(1, 4)}, chance.random() < 0.3)
            check("old acts", timing.due_tick(pipeline, acts[-timing.REACH:], *what), timing.due_tick(pipeline, acts, *what))


def main():
    for test in (cycles, results, profiles, two_loads, missed_gets, due_ticks, operands, deferred_breaks, takes, relay, document, stages_agree, old_acts):
        test()
    print("timing model: all worked runs agree")


if __name__ == "__main__":
    main()
