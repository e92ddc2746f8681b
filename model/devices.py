"""The devices of a board, register by register, in the words of their data sheets: AXI Timer (PG079), AXI INTC (PG099) and
AXI UART Lite (PG142). Apart from the proved program.

A register is a pair in `registers`: what a read answers, and what a write of a word does. A device has a `line`, its output.
"""
import collections

WORD = 0xFFFFFFFF
WINDOW = 4096


class BadAccess(Exception):
    """A device refuses an access, and nothing has changed."""


class Device:
    """It moves in each cycle that its clock divides."""
    clock = 1

    def is_due(self, number):
        return number % self.clock == 0

    def access(self, offset, word=None):
        """Reads the register at an offset, or writes a word to it; the answer is a word."""
        if offset not in self.registers:
            raise BadAccess
        reads, writes = self.registers[offset]
        return reads() if word is None else writes(word) or 0


def nothing(_):
    """What the write of a register does that can't be written."""


def zero():
    """What the read of a register answers that can't be read."""
    return 0


# the timer

MDT, UDT, GENT, CAPT, ARHT, LOAD, ENIT, ENT, TINT, PWMA, ENALL, CASC = (1 << bit for bit in range(12))
TAKEN = UDT | GENT | ARHT | LOAD | ENIT | ENT
REFUSED = WORD & ~(TAKEN | TINT | ENALL)


class Counter:
    def __init__(self):
        self.status = self.load = self.count = 0
        self.over = False  # the count has passed its end

    def registers(self, control):
        return {
            0x0: (lambda: self.status, lambda word: control(self, word)),  # TCSR
            0x4: (lambda: self.load, self.put_load),                       # TLR
            0x8: (lambda: self.count, nothing),                            # TCR
        }

    def put_load(self, word):
        self.load = word

    def cycle(self):
        if self.status & LOAD:
            self.reload()
        elif self.status & ENT and self.over and self.status & ARHT:
            self.reload()
        elif self.status & ENT and not self.over:
            self.step()

    def reload(self):
        self.count, self.over = self.load, False

    def step(self):
        end, step = (0, -1) if self.status & UDT else (WORD, 1)
        if self.count == end:
            self.status, self.over = self.status | TINT, True
        self.count = (self.count + step) & WORD


class Timer(Device):
    def __init__(self):
        self.counters = Counter(), Counter()
        self.registers = {place + offset: register for place, one in zip((0x00, 0x10), self.counters)
                          for offset, register in one.registers(self.control).items()}

    def control(self, one, word):
        """A write of one counter's TCSR; ENALL is both counters'."""
        if word & REFUSED:
            raise BadAccess
        one.status = one.status & ~(TAKEN | TINT & word) | word & TAKEN
        for both in self.counters:
            both.status = both.status | ENALL | ENT if word & ENALL else both.status & ~ENALL
            both.over = both.over and bool(both.status & ENT)

    def cycle(self):
        for one in self.counters:
            one.cycle()

    @property
    def line(self):
        return any(one.status & TINT and one.status & ENIT for one in self.counters)

    def answer(self):
        """The level of the output, as a controller reads it at its move."""
        return self.line


# the interrupt controller

ME, HIE = 1, 2


class Controller(Device):
    def __init__(self, inputs=()):
        self.inputs = list(inputs)  # (number, device)
        self.isr = self.ier = self.mer = 0
        self.registers = {
            0x00: (lambda: self.isr, self.put_isr),                                # ISR
            0x04: (self.pending, nothing),                                         # IPR
            0x08: (lambda: self.ier, lambda word: self.enable(WORD, word)),        # IER
            0x0C: (zero, self.acknowledge),                                        # IAR
            0x10: (zero, lambda word: self.enable(word, word)),                    # SIE
            0x14: (zero, lambda word: self.enable(word, 0)),                       # CIE
            0x18: (self.vector, nothing),                                          # IVR
            0x1C: (lambda: self.mer, self.put_mer),                                # MER
        }

    def put_isr(self, word):
        if not self.mer & HIE:
            self.isr = word

    def pending(self):
        return self.isr & self.ier

    def enable(self, mask, word):
        self.ier = self.ier & ~mask | word & mask

    def acknowledge(self, word):
        self.isr &= ~word

    def vector(self):
        return next((number for number in range(32) if self.pending() >> number & 1), WORD)

    def put_mer(self, word):
        self.mer = self.mer & HIE | word & (ME | HIE)

    def cycle(self):
        for number, device in self.inputs:
            high = device.answer()
            if self.mer & HIE:
                self.isr |= bool(high) << number

    @property
    def line(self):
        return bool(self.mer & ME and self.pending())


# the UART

HOLDS = 16
RST_TX, RST_RX, ENABLE = 0x01, 0x02, 0x10


class Uart(Device):
    """`given` are the bytes that are still to arrive, and `left` those that left. An edge is held until it is asked for."""

    def __init__(self, name="", every=1, given=b""):
        self.name, self.every, self.given, self.left = name, every, collections.deque(given), bytearray()
        self.rx, self.tx = collections.deque(), collections.deque()
        self.enabled = self.overrun = self.held = False
        self.registers = {
            0x0: (self.receive, nothing),      # RX
            0x4: (zero, self.send),            # TX
            0x8: (self.tell_status, nothing),  # STAT
            0xC: (zero, self.control),         # CTRL
        }

    def receive(self):
        if not self.rx:
            raise BadAccess
        return self.rx.popleft()

    def send(self, word):
        if len(self.tx) == HOLDS:
            raise BadAccess
        self.tx.append(word & 0xFF)

    def tell_status(self):
        bits = (self.rx, len(self.rx) == HOLDS, not self.tx, len(self.tx) == HOLDS, self.enabled, self.overrun)
        self.overrun = False
        return sum(bool(bit) << place for place, bit in enumerate(bits))

    def control(self, word):
        if word & RST_TX:
            self.tx.clear()
        if word & RST_RX:
            self.rx.clear()
        self.enabled = bool(word & ENABLE)

    def cycle(self, number):
        """What the UART does in the board's cycle of this number: the byte that left, or None."""
        if number % (self.every * self.clock):
            return None
        emptied, filled = len(self.tx) == 1, bool(self.given and not self.rx)
        self.held = self.held or self.enabled and (emptied or filled)
        byte = self.tx.popleft() if self.tx else None
        if byte is not None:
            self.left.append(byte)
        if self.given:
            self.arrive(self.given.popleft())
        return byte

    def arrive(self, byte):
        if len(self.rx) == HOLDS:
            self.overrun = True
        else:
            self.rx.append(byte)

    def answer(self):
        """Whether an edge is held, which is then gone."""
        held, self.held = self.held, False
        return held

    def is_done(self):
        return not self.given and not self.tx


# windows

class Bus:
    """The devices of one core: each by the base of its window, and which of them is the controller."""

    def __init__(self):
        self.windows, self.controller = {}, None

    def access(self, addr, word=None):
        """The answer of the device there, or None where there is none or it refuses."""
        device = self.windows.get(addr - addr % WINDOW)
        try:
            return device.access(addr % WINDOW, word) if device else None
        except BadAccess:
            return None

    @property
    def line(self):
        return self.controller is not None and self.controller.line
