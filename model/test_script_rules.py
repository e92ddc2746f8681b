"""Scripts that were judged by hand."""
import script_rules

SYMBOLS, PROBES = {b"a": [b"main", b"_end"], b"b": []}, [b"count", b"watch"]
SCRIPTS = [
    (b"", None),
    (b"step 2\nprobe count\ndrop count\nrun 10\nwhere\n", None),
    (b"step 2\nprobe count\ndrop count\nrun 10\nwhere\nprobe count\n", (1205, 6)),
    (b"drop count\ndrop count", (1205, 2)),
    (b"\n\nlinks\n\nfoo", (1201, 5)),
    (b"step", (1202, 1)),
    (b"step  2", (1202, 1)),
    (b" step 2", (1201, 1)),
    (b"where ", (1202, 1)),
    (b"where\r\n", (1201, 1)),
    (b"list all", (1202, 1)),
    (b"regs z", (1203, 1)),
    (b"mem z x 0", (1203, 1)),
    (b"run x", (1204, 1)),
    (b"run 1000000000000\nstep 0", None),
    (b"run 1000000000001", (1204, 1)),
    (b"run 0000000000000000001\nrun 0x10\nrun 0xffffFFFF", None),
    (b"run 00000000000000000001", (1204, 1)),
    (b"run 0x", (1204, 1)),
    (b"run 0x100000000", (1204, 1)),
    (b"run 0X1", (1204, 1)),
    (b"run ", (1204, 1)),
    (b"break a main\nbreak a _end\nbreak a 4294967295", None),
    (b"break b main", (1204, 1)),
    (b"break a 4294967296", (1204, 1)),
    (b"break a 1main", (1204, 1)),
    (b"break a ", (1204, 1)),
    (b"mem a main 4096\nmem a 0 1", None),
    (b"mem a 0 4097", (1204, 1)),
    (b"mem a 0 0", (1204, 1)),
    (b"break a 0\n" * 64, None),
    (b"break a 0\n" * 65, (1206, 65)),
    (b"break a 0\n" * 64 + b"break a x", (1204, 65)),
    (b"\xff", (1201, 1)),
]


def main():
    for text, wanted in SCRIPTS:
        found = script_rules.first_fault(text, SYMBOLS, PROBES)
        assert found == wanted, (text[:40], found, wanted)


if __name__ == "__main__":
    main()
