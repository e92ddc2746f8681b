"""Time on a pipeline: the table of times, and the tick from which on an instruction may act.

Written from the table's words, over the whole list of what a core has done, apart from the proved program: nothing here is
a latch or a counter. A tick is one chance of a core to act; its ticks are numbered from 0.
"""
import dataclasses

from instructions import FIELDS, SHIFTS

PIPELINES = ("plain", "three", "five", "eight")

# a row of the table: its number on each pipeline, in their order
FIRST_TICK =                       (0, 2, 3, 3)
HOLD_OF_LOADS_AND_STORES =         (1, 2, 1, 1)
HOLD_OF_OTHERS =                   (1, 1, 1, 1)
READY_OF_LOADS_AND_GETS =          (1, 2, 2, 5)
READY_OF_MULTIPLY_AND_BARREL =     (1, 2, 2, 4)
READY_OF_OTHERS =                  (1, 1, 1, 1)
EXTRA_OF_DIVIDES =                 (0, 33, 33, 33)
REDIRECT_AFTER_A_BRANCH =          (1, 3, 3, 3)
REDIRECT_AFTER_A_TRAP_OR_STRIKE =  (1, 3, 4, 4)

LOADS = {"lbu", "lhu", "lw", "lbui", "lhui", "lwi"}
STORES = {"sb", "sh", "sw", "sbi", "shi", "swi"}
GETS = {"get", "getd"}
MULTIPLIES = {"mul", "mulh", "mulhsu", "mulhu", "muli"}
BARREL_SHIFTS = {"bsrl", "bsra", "bsll", "bsrli", "bsrai", "bslli"}
DIVIDES = {"idiv", "idivu"}

STRIKING_DISTANCE = 32  # a store strikes if it goes to one of the eight words from the pc after it
REACH = 5  # no number of an act is further from it than this


@dataclasses.dataclass
class Act:
    """What a core did in a tick, as time sees it. An act without a name is a take or a raise.

    `register` is the one that it wrote, or rD of a get that missed; `jump` is "taken" for a branch that was taken, a return
    and a break instruction, and "struck" for a store into one of the eight words from the pc after it.
    """
    tick: int
    name: str | None = None
    register: int | None = None
    jump: str | None = None


def on(pipeline, row):
    return row[PIPELINES.index(pipeline)]


def reads(name, form, word):
    """The registers that an instruction reads: what the fields rA and rB of its form name, and what a store's rD names.
    Whether the effect needs them doesn't count."""
    fields = [field for field in FIELDS[form] if field != "rD" or name in STORES]
    return {word >> SHIFTS[field] & 31 for field in fields} - {0}


def hold_of(act, pipeline):
    """From an act to the next one."""
    return on(pipeline, HOLD_OF_LOADS_AND_STORES if act.name in LOADS | STORES else HOLD_OF_OTHERS)


def ready_of(act, pipeline):
    """From an act to the first one that can read the register it makes."""
    if act.name in LOADS | GETS:
        return on(pipeline, READY_OF_LOADS_AND_GETS)
    return on(pipeline, READY_OF_MULTIPLY_AND_BARREL if act.name in MULTIPLIES | BARREL_SHIFTS else READY_OF_OTHERS)


def redirect_of(act, pipeline):
    """From an act to the first one at the place that it leads to; None if it leads nowhere."""
    if act.jump == "taken":
        return on(pipeline, REDIRECT_AFTER_A_BRANCH)
    return on(pipeline, REDIRECT_AFTER_A_TRAP_OR_STRIKE) if act.name is None or act.jump == "struck" else None


def numbers(pipeline, acts, read=(), in_slot=False):
    """The ticks before which an instruction may not act, by what holds it back. `acts` is all that its core did before,
    the oldest first, and `read` the registers that it reads."""
    last_writers = [[act for act in acts if act.register == register][-1:] for register in read]
    redirects = [act for act in acts if redirect_of(act, pipeline) is not None and not in_slot]
    return {
        "start": on(pipeline, FIRST_TICK),
        "hold": max((act.tick + hold_of(act, pipeline) for act in acts[-1:]), default=0),
        "operand": max((act.tick + ready_of(act, pipeline) for last in last_writers for act in last), default=0),
        "redirect": max((act.tick + redirect_of(act, pipeline) for act in redirects), default=0),
    }


def due_tick(pipeline, acts, name=None, read=(), in_slot=False):
    """The tick from which on an instruction may act. It has no name if no instruction stands at pc: then it reads nothing."""
    extra = on(pipeline, EXTRA_OF_DIVIDES) if name in DIVIDES else 0
    return max(numbers(pipeline, acts, read, in_slot).values()) + extra


def reason(pipeline, acts, tick, read=(), in_slot=False):
    """What an instruction that is not due in this tick waits for: the first that says so, and else its own division."""
    found = numbers(pipeline, acts, read, in_slot)
    return next((what for what, number in found.items() if number > tick), "divide")
