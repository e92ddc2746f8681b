"""Sources that were worked out by hand: their words or their first fault, as line, column and code."""
import assembler
import elf

WORDS = [
    ("addik r3, r0, 0x12345", [0xB0000001, 0x30602345]),
    ("addik r3, r0, 32767\naddik r3, r0, -32768", [0x30607FFF, 0x30608000]),
    ("addik r3, r0, 32768", [0xB0000000, 0x30608000]),
    ("addik r3, r0, 0xFFFF8000\nla r3, r0, -1", [0xB000FFFF, 0x30608000, 0x3060FFFF]),
    ("imm 1\n # between\nx: .text\naddik r3, r0, 65535", [0xB0000001, 0x3060FFFF]),
    ("bri x\n.space 32760\nx: bri x\nbrai x", [0xB8007FFC] + [0] * 8190 + [0xB8000000, 0xB8087FFC]),
    ("bri x\n.space 32764\nx: bri x\nbrai x", [0xB0000000, 0xB8008000] + [0] * 8191 + [0xB8000000, 0xB0000000, 0xB8088004]),
    ("x: .word x, y\ny: .half 1, -1\n.byte 255, -128, 0, 7", [0, 8, 0x0001FFFF, 0xFF800007]),
    ("tnecaget r3, rfsl5\ntput rfsl1\nputd r3, r4\ncputd r3, r4", [0x6C607C05, 0x6C009001, 0x4C032400, 0x4C032500]),
    ("mfs r3, rear\nmts rmsr, r4\nmsrset r5, 2\nmbar 16\nnop", [0x94608003, 0x9404C001, 0x94B00002, 0xBA020004, 0x80000000]),
]
FAULTS = [
    ("x: x: nop", (1105, 1, 4)),
    ("nop\n  bri nowhere", (1104, 2, 7)),
    ("imm 1\nx: addik r3, r0, x", (1102, 2, 4)),
    ("imm 1\naddik r3, r0, 65536", (1103, 2, 15)),
    ("imm 1\n.align 8\naddik r3, r0, 65536", None),
    ("bri r5\nr5: nop", (1102, 1, 1)),
    ("bri r32\nr32: nop", None),
    ("5 6", (1101, 1, 1)),
    (", nop", (1101, 1, 1)),
    ("foo @", (1101, 1, 1)),
    ("nop @", (1110, 1, 5)),
    ("x @: nop\nbri x", (1101, 1, 1)),
    ("nop\r\nnop\r", (1110, 2, 4)),
    (".byte 1,2,3,4,5,6,7,8,9,10,11,12,13,14,15,16,17,18,19,20", None),
    (".byte 1,2,3,4,5,6,7,8,9,10,11,12,13,14,15,16,17,18,19,20,", (1112, 1, 57)),
    (".byte 1,2,3,4,5,6,7,8,9,10,11,12,13,14,15,16,17,18,19,20@", (1110, 1, 57)),
    ('.ascii "a\tb"', (1109, 1, 8)),
    ("brid 8\nbri 8", (1106, 2, 1)),
    ("brid 8\n.align 4\n.space 0\nx: nop", None),
    ("brid 8\n.org 4\nnop", (1107, 1, 1)),
    ("brid 8\n.word 0", (1107, 1, 1)),
    (".byte 1\nnop", (1103, 2, 1)),
    (".org 4\n.word 0\n.org 0\n.word 0, 0", (1111, 3, 1)),
    (".space 1048576\n.align 16", None),
    (".space 1048576\n.byte 1", (1112, 2, 1)),
    (".org 67108864\nnop", (1112, 2, 1)),
    (".org 67108868", (1112, 1, 1)),
]


def fault_of(source):
    try:
        assembler.assemble(source.encode())
    except assembler.Fault as fault:
        return fault.code, fault.line, fault.column
    return None


def main():
    for source, words in WORDS:
        got = assembler.assemble(source.encode())
        assert got == elf.write(elf.Image("big", 0, [elf.Part(0, elf.words(words))])), (source, got[84:].hex())
    for source, wanted in FAULTS:
        assert fault_of(source) == wanted, (source, fault_of(source), wanted)


if __name__ == "__main__":
    main()
