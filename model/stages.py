"""The pictures of docs/PIPELINES.md, stage by stage: when an instruction may act, from how words go through the stages.

A second model of time, which doesn't know the table of `timing`: a word goes on when the next stage is free, EX begins when
its operands can be had, and a flush fetches anew. `test_timing` compares the two.
"""
from timing import BARREL_SHIFTS, DIVIDES, GETS, LOADS, MULTIPLIES, STORES

STAGES = {"three": ("IF", "OF", "EX"), "five": ("IF", "OF", "EX", "MEM", "WB"),
          "eight": ("IF", "OF", "EX", "M0", "M1", "M2", "M3", "WB")}
ACTS_IN = {"three": "EX", "five": "MEM", "eight": "M0"}
# the stage from whose end a value goes straight to EX; None if it is read from the register file, in OF
PRODUCTS_FROM = {"three": None, "five": "MEM", "eight": "M2"}
LOADS_FROM = {"three": None, "five": "MEM", "eight": "M3"}
MEMORY_HOLDS_EX = {"three": 2, "five": 1, "eight": 1}
DIVIDER = 33


class Stages:
    """The stages of a core: the ticks from which each is free, and from which the EX of a later instruction can have each
    register's value."""

    def __init__(self, pipeline):
        self.pipeline, self.values = pipeline, {}
        self.fetched_from = 0  # the first tick in which a word can be fetched behind a flush
        self.fetch_free = self.decode_free = self.execute_free = 0
        self.decoded = self.executed = 0  # the first ticks of the word at pc in OF and EX

    def from_execute(self, stage):
        """How many ticks behind EX a stage stands."""
        stages = STAGES[self.pipeline]
        return stages.index(stage) - stages.index("EX")

    def due_tick(self, name=None, read=(), in_slot=False):
        """The tick in which the word at pc comes to the stage of its act. A slot was fetched with its branch."""
        fetched = max(self.fetch_free, 0 if in_slot else self.fetched_from)
        self.decoded = max(fetched + 1, self.decode_free)
        self.executed = max([self.decoded + 1, self.execute_free] + [self.values.get(register, 0) for register in read])
        return self.executed + (DIVIDER if name in DIVIDES else 0) + self.from_execute(ACTS_IN[self.pipeline])

    def do(self, act):
        """What an act leaves; one that waited for its port did so in EX and in the stage of its act."""
        executed_last = act.tick - self.from_execute(ACTS_IN[self.pipeline])
        self.fetch_free, self.decode_free = self.decoded, self.executed
        self.execute_free = executed_last + (MEMORY_HOLDS_EX[self.pipeline] if act.name in LOADS | STORES else 1)
        if act.register is not None:
            self.values[act.register] = self.value_from(act, executed_last)
        if act.jump == "taken":
            self.fetched_from = executed_last + 1
        elif act.name is None or act.jump == "struck":
            # the stages before EX are empty; what a take found there never comes to its act
            self.fetch_free = self.decode_free = self.fetched_from = act.tick + 1

    def value_from(self, act, executed_last):
        stage = "EX"
        if act.name in LOADS | GETS:
            stage = LOADS_FROM[self.pipeline]
        elif act.name in MULTIPLIES | BARREL_SHIFTS:
            stage = PRODUCTS_FROM[self.pipeline]
        if stage is None:
            # in the register file in the tick after the act; OF reads it then, and EX comes behind OF
            return act.tick + 2
        return executed_last + self.from_execute(stage) + 1
