"""Cases in which the program and the model once differed, and those beside them, by kind: a title, the words, and the files."""
import pathlib

import elf

BOARD = b'version = 1\ncore.a = {image = "image", pipeline = "plain"}\n'
IMAGE = elf.write(elf.Image("big", 0, [elf.Part(0, elf.words([0xB8000000]))]))


def with_lines(title, behind=b"", before=b""):
    """A board that is right, with lines behind it, or before it."""
    return title, "run board.toml --cycles 5", {"board.toml": before + BOARD + behind, "image": IMAGE}


CASES = {
    "BOARD": [
        with_lines("line ends in an inline table", b'core.b = {image = "image",\n # here\n pipeline = "plain",\n}\n'),
        with_lines("an escape of two digits", b'core.b = {image = "\\x69mage", pipeline = "plain"}\n'),
        with_lines("the escape e", b'core."\\e" = {image = "image", pipeline = "plain"}\n'),
        with_lines("a time without seconds", b"x = 07:32\n"),
        with_lines("a date and a time without seconds", b"x = 1979-05-27 07:32Z\n"),
        with_lines("a fraction beyond 64 bits", b"x = 1e309\n"),
        with_lines("a negative fraction beyond 64 bits", b"x = -1e309\n"),
        with_lines("the last fraction within 64 bits", b"x = 1e308\n"),
        with_lines("80 lists in one another", b"x = " + b"[" * 80 + b"]" * 80 + b"\n"),
        with_lines("81 lists in one another", b"x = " + b"[" * 81 + b"]" * 81 + b"\n"),
        with_lines("a key of 80 parts", b"x" + b".a" * 79 + b" = 1\n"),
        with_lines("a key of 81 parts", b"x" + b".a" * 80 + b" = 1\n"),
        with_lines("a header of 81 parts", b"[x" + b".a" * 80 + b"]\n"),
        with_lines("a header, a key and lists of 80 each", b"[x" + b".a" * 79 + b"]\nb" + b".b" * 79 + b" = " + b"[" * 80 + b"]" * 80 + b"\n"),
        with_lines("an integer of thousands of digits", b"x = " + b"7" * 5000 + b"\n"),
    ],
    "ELF": [],
    "SOURCE": [],
    "SCRIPT": [],
}


def write(folder, files):
    for name, data in files.items():
        pathlib.Path(folder, name).write_bytes(data)
