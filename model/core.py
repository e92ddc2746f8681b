"""A MicroBlaze core, simple and slow, from UG984: what the proved program is compared with.

It knows nothing of the program. Each word is looked up in the whole table of `instructions`. A core does one instruction at
a time, whatever its pipeline; the pipeline says in which tick, by `timing`. What a core stands in (its links, breaks and bus)
is an object like `board.Ports`.
"""
import functools

import timing
from instructions import BIP, C, DZO, EE, EFFECTS, EIP, FSL, IE, IMMEDIATE, MASKS, ROWS, WORD, Operands, signed


@functools.lru_cache(maxsize=None)
def decode(word):
    """The name and the form of the one row that the word is of, if any."""
    found = [(name, form) for name, form, bits in ROWS if word & MASKS[form] == bits]
    assert len(found) <= 1
    return found[0] if found else (None, None)


NOT_IN_A_SLOT = {"imm", "mbar", "rtsd", "rtid", "rtbd", "rted"}
ENDS = 0xB8000000  # bri 0
VECTOR = {"interrupt": 0x10, "break": 0x18, "nonmaskable": 0x18}


def is_branch(name):
    return name[0] == "b" and not name.startswith("bs")


def is_link(name):
    return name in ("get", "put", "getd", "putd")


def link_flags(word, name):
    """n 16, c 8, t 4, a 2, e 1."""
    if name in ("get", "put"):
        return word >> 10 & (31 if name == "get" else 30)
    return word >> 5 & (31 if name == "getd" else 30)


class Core:
    def __init__(self, memory, entry=0, order="big", network=False, pipeline="plain"):
        self.memory, self.order, self.network, self.pipeline = memory, order, network, pipeline
        self.r = [0] * 32
        self.pc = entry
        self.msr = self.ear = self.esr = self.btr = self.edr = 0
        self.prefix = self.slot = self.stopped = None
        self.atomic = self.asleep = False
        self.told = []  # what the act in hand enters in the journal
        self.ticks, self.past = 0, []  # the ticks that it had; its last acts as time sees them, the oldest first
        self.done = timing.Act(0)  # the act in hand
        self.spent = None  # what the last tick was spent on

    # one chance to act

    def tick(self, ports):
        """Does the one act that is due. Answers whether there was one, and what it, or a wait, enters in the journal."""
        self.told, self.done, self.spent = [], timing.Act(self.ticks), "acted"
        acted = self.act(ports)
        if acted and not self.stopped:
            # older acts can't hold the next one back
            self.past = (self.past + [self.done])[-timing.REACH:]
        self.ticks += 1
        return acted, self.told

    def act(self, ports):
        if self.stopped:
            return self.passes("done")
        take = self.take_due(ports)
        if take:
            self.enter(take)
            ports.took(take)
            return True
        if self.asleep:
            return self.passes("done" if self.idle(ports) else "sleeping")
        word = self.word_here()
        if self.has_ended(word, ports):
            return self.passes("done")
        if self.ticks < self.due_tick():
            return self.passes(self.reason())
        if word is None:
            self.fault(3, f"ibus {self.pc:08X}")
            return True
        name, form = decode(word)
        if name is None or self.network and is_link(name) and link_flags(word, name) & 16:
            self.fault(2, f"illegal {word:08X}")
        elif self.slot is not None and (is_branch(name) or name in NOT_IN_A_SLOT):
            self.stop(f"slot {word:08X}")
        elif self.wait(word, name, ports):
            self.told.append("wait " + self.wait(word, name, ports))
            return self.passes("waiting")
        else:
            self.execute(word, name, form, ports)
        return True

    def due_tick(self):
        """The tick from which on the instruction at pc may act."""
        name, read = self.operands_here()
        return timing.due_tick(self.pipeline, self.past, name, read, self.slot is not None)

    def reason(self):
        """What an act that is due later waits for."""
        _, read = self.operands_here()
        return timing.reason(self.pipeline, self.past, self.ticks, read, self.slot is not None)

    def passes(self, spent):
        """A tick without an act, and what it is spent on."""
        self.spent = spent
        return False

    def operands_here(self):
        """The name of the instruction at pc and the registers that it reads; None and none if there is no instruction."""
        word = self.word_here()
        name, form = decode(word) if word is not None else (None, None)
        return name, timing.reads(name, form, word) if name else set()

    def execute(self, word, name, form, ports):
        self.done.name = name
        rd, ra, rb, low = word >> 21 & 31, word >> 16 & 31, word >> 11 & 31, word & 0xFFFF
        a, d = self.r[ra], self.r[rd]
        if form in IMMEDIATE:
            b = (self.prefix << 16) + low if self.prefix is not None else signed(low, 16) & WORD
        elif form == "S":
            b = low & 31
        else:
            b = self.r[rb]
        EFFECTS[name](self, Operands(rd, a, b, d, word), ports)

    def word_here(self):
        if self.pc % 4 or self.pc >= len(self.memory):
            return None
        return int.from_bytes(self.memory[self.pc:self.pc + 4], self.order)

    # breaks, interrupts and rest

    def may_take(self):
        if self.prefix is not None or self.slot is not None or self.atomic:
            return False
        word = self.word_here()
        name = word is not None and decode(word)[0]
        return self.asleep or not (name and is_link(name) and link_flags(word, name) & 2)

    def take_due(self, ports):
        if not self.may_take():
            return None
        free = not self.msr & (BIP | EIP)
        if "nonmaskable" in ports.pending:
            return "nonmaskable"
        if "break" in ports.pending and free:
            return "break"
        return "interrupt" if ports.line and self.msr & IE and free else None

    def enter(self, take):
        if take == "interrupt":
            self.r[14] = self.pc
            self.put_flag(IE, False)
        else:
            self.r[16] = self.pc
            self.put_flag(BIP, True)
        self.pc, self.asleep = VECTOR[take], False
        self.told.append("took " + take)

    def is_closed(self, ports):
        """Whether no take can come."""
        held = self.msr & (BIP | EIP)
        return ("nonmaskable" not in ports.hopes
                and ("break" not in ports.hopes or bool(held))
                and ("interrupt" not in ports.hopes or bool(held) or not self.msr & IE))

    def has_ended(self, word, ports):
        return word == ENDS and self.prefix is None and self.slot is None and self.is_closed(ports)

    def wait(self, word, name, ports):
        """`get P` or `put P` of a blocking link access whose port isn't ready."""
        if not is_link(name) or link_flags(word, name) & 16:
            return None
        port = self.port(word, name)
        ready = ports.first(port) is not None if name.startswith("get") else ports.room(port)
        return None if ready else f"{name[:3]} {port}"

    def idle(self, ports):
        """Why no act is due and none can come by a take: the report's word for it, or None."""
        if self.stopped:
            return "stopped " + self.stopped
        held = self.is_closed(ports) or not self.may_take()
        if self.asleep:
            return "asleep" if held else None
        word = self.word_here()
        if word is None:
            return None
        if self.has_ended(word, ports):
            return "ended"
        name, _ = decode(word)
        if name is None or self.network and is_link(name) and link_flags(word, name) & 16:
            return None
        wait = self.wait(word, name, ports)
        return "waits " + wait if wait and held else None

    # what surrounds an instruction

    def exceptions_on(self):
        return self.msr & EE and not self.msr & EIP

    def advance(self):
        self.pc = self.slot if self.slot is not None else (self.pc + 4) & WORD
        self.prefix = self.slot = None
        self.atomic = False

    def put_register(self, number, value):
        """The result of an instruction."""
        self.done.register = number
        if number:
            self.r[number] = value & WORD

    def put_flag(self, bit, on):
        self.msr = self.msr | bit if on else self.msr & ~bit

    def raise_fault(self, esr, ear=None, edr=None):
        in_slot = self.slot is not None
        self.esr = esr + (0x1000 if in_slot else 0)
        if ear is not None:
            self.ear = ear
        if edr is not None:
            self.edr = edr
        if in_slot:
            self.btr = self.slot
        else:
            self.r[17] = (self.pc + 4) & WORD
        self.msr = (self.msr | EIP) & ~EE
        self.pc, self.prefix, self.slot, self.atomic = 0x20, None, None, False
        self.done = timing.Act(self.ticks)
        self.told.append(f"raised {self.esr:08X}")

    def stop(self, cause):
        self.stopped = cause
        self.told.append("stopped " + cause)

    def fault(self, esr, cause, ear=None):
        """Raises a fault that stops the core where exceptions are off."""
        if self.exceptions_on():
            self.raise_fault(esr, ear)
        else:
            self.stop(cause)

    def port(self, word, name):
        return self.r[word >> 11 & 31] & 15 if name.endswith("d") else word & 15

    # what effects are made of

    def carry(self):
        return self.msr >> 2 & 1

    def status(self):
        """MSR as it reads: CC is a copy of C."""
        return self.msr | (0x80000000 if self.msr & C else 0)

    def put_sum(self, rd, total, keep):
        self.advance()
        if not keep:
            self.put_flag(C, total > WORD)
        self.put_register(rd, total)

    def result(self, rd, value):
        self.advance()
        self.put_register(rd, int(value))

    def branch(self, target, delayed):
        """A branch that is taken."""
        self.done.jump = "taken"
        if delayed:
            self.hold_slot(target)
        else:
            self.pc, self.prefix, self.slot, self.atomic = target, None, None, False

    def hold_slot(self, target):
        """The next instruction runs first, and then the one at the target."""
        self.pc, self.prefix, self.slot, self.atomic = (self.pc + 4) & WORD, None, target, False

    def end_store(self, addr):
        self.advance()
        if (addr - self.pc) & WORD < timing.STRIKING_DISTANCE:
            self.done.jump = "struck"

    def divide(self, has_signs, rd, a, b):
        if a == 0:
            value, esr = 0, 5
        elif has_signs and a == WORD and b == 0x80000000:
            value, esr = b, 0x805
        else:
            x, y = (signed(b), signed(a)) if has_signs else (b, a)
            value, esr = abs(x) // abs(y) * (-1 if (x < 0) != (y < 0) else 1), None
        if esr is None:
            self.result(rd, value)
        elif self.exceptions_on():
            self.put_flag(DZO, True)
            self.raise_fault(esr)
        else:
            self.result(rd, value)
            self.put_flag(DZO, True)

    def access(self, store, size, rd, addr, value, ports):
        if addr % size:
            if self.exceptions_on():
                self.raise_fault(1 + (0x800 if size == 4 else 0) + (0x400 if store else 0) + (rd << 5), addr)
                return
            addr -= addr % size
        if addr >= len(self.memory):
            self.reach_bus(store, size, rd, addr, value, ports)
        elif store:
            self.memory[addr:addr + size] = (value & (1 << 8 * size) - 1).to_bytes(size, self.order)
            self.end_store(addr)
        else:
            self.result(rd, int.from_bytes(self.memory[addr:addr + size], self.order))

    def reach_bus(self, store, size, rd, addr, value, ports):
        """A word above the memory is the bus's; smaller accesses don't get there."""
        answer = None
        if size == 4:
            answer = ports.write(addr, value) if store else ports.read(addr)
            refused = "" if answer is not None else "refused"
            word = value if store else answer
            self.told.append(f"{'wrote' if store and not refused else 'write' if store else 'read'}{refused} {addr:08X}"
                             + ("" if word is None else f" {word:08X}"))
        if answer is None:
            self.fault(4, f"dbus {addr:08X}", addr)
        elif store:
            self.end_store(addr)
        else:
            self.result(rd, answer)

    def use_link(self, name, word, rd, a, ports):
        flags, port = link_flags(word, name), self.port(word, name)
        item = ports.first(port) if name.startswith("get") else None
        ready = item is not None if name.startswith("get") else ports.room(port)
        if flags & 16:
            self.put_flag(C, not ready)
        if not ready:
            self.done.register = rd if name.startswith("get") else None  # as late as if it had been written
            self.told.append(f"missed {name[:3]} {port}")
        elif name.startswith("put"):
            self.send(flags, port, a, ports)
        elif self.receive(flags, port, item, rd, ports):
            return
        self.advance()
        self.atomic = bool(flags & 2)

    def send(self, flags, port, a, ports):
        control = flags >> 3 & 1
        if flags & 4:
            self.told.append(f"room {port}")
        else:
            ports.put(port, (control, a))
            self.told.append(f"sent {port} {control} {a:08X}")

    def receive(self, flags, port, item, rd, ports):
        """Whether the get raised."""
        control, value = item
        if not flags & 4:
            ports.take(port)
        self.told.append(f"{'seen' if flags & 4 else 'got'} {port} {control} {value:08X}")
        if control != flags >> 3 & 1:
            self.put_flag(FSL, True)
            if flags & 1 and self.exceptions_on():
                self.raise_fault(port << 5, edr=value)
                return True
        self.put_register(rd, value)
        return False
