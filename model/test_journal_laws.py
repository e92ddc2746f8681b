#!/usr/bin/env python3
"""Tests the laws of journals: right journals keep them, and each altered one is refused by the law that it breaks."""
import pathlib
import tempfile

import board
import board_rules
import directed_boards
import journal_laws
import test_board
from directed_boards import BASES, DEVICES, END, HANDLER, IE_OFF, IE_ON, LISTEN, NOTHING, ONCE, SENDS, SLEEP
from test_board import check

# Core a puts 7 and 8 into a link of depth 1, the second after a miss and a wait; core b sees, gets, gets and waits.
QUEUE_IMAGES = {"a.elf": [0x30600007, 0x6C038000, 0x30600008, 0x6C03C000, 0x6C038000, END],
                "b.elf": [NOTHING] * 4 + [0x6C801000, 0x6C800000, 0x6C804000, 0x6C800000, END]}
QUEUE = """1 a 1 sent 0 0 00000007
3 a 3 missed put 0
4 a 4 wait put 0
4 b 4 seen 0 0 00000007
5 b 5 got 0 0 00000007
6 a 4 sent 0 0 00000008
6 b 6 got 0 0 00000008
"""

# two breaks before an interrupt, and a sleep that a break ends which can't be masked
TAKES_PROGRAM = ("", BASES + LISTEN + directed_boards.start_timer(3) + [IE_ON] + [NOTHING] * 12 + [IE_OFF] + SENDS + [SLEEP, END],
                 [(17, "break"), (18, "break"), (60, "nonmaskable")], DEVICES, {HANDLER: ONCE})
TAKES = """0 - 0 hostsent i 0 00000005
1 - 0 hostsent i 1 00000006
2 - 0 hostsent i 0 00000007
3 - 0 hostsent i 1 00000008
7 c 7 wrote 41200008 00000003
9 c 9 wrote 4120001C 00000003
11 c 11 wrote 41C00004 00000003
13 c 13 wrote 41C00000 00000022
15 c 15 wrote 41C00000 000000D2
17 c 17 took break
19 c 19 lineup
20 c 20 took break
23 c 23 took interrupt
26 c 26 wrote 41C00000 00000100
28 c 28 wrote 4120000C 00000003
29 c 29 linedown
44 c 44 sent 0 0 00000000
45 - 0 hostgot o 0 00000000
45 c 45 sent 0 0 00000003
46 - 0 hostgot o 0 00000003
46 c 46 sent 0 0 00000000
47 - 0 hostgot o 0 00000000
47 c 47 slept
60 c 48 took nonmaskable
"""

STOP_TEXT = test_board.ONE_CORE + test_board.OUT.format(depth=1)
STOP_IMAGES = {"c.elf": [0xFFFFFFFF]}
STOP = "0 c 0 stopped illegal FFFFFFFF\n"

# what is altered, in which journal, which lines and into what, and the law that this breaks
ALTERED = [
    ("an item that overtakes", QUEUE, "5 b 5 got 0 0 00000007", "5 b 5 got 0 0 00000008", "link"),
    ("another control bit", QUEUE, "seen 0 0 00000007", "seen 0 1 00000007", "link"),
    ("an item that was taken", QUEUE, "6 b 6 got 0 0 00000008", "6 b 6 got 0 0 00000007", "link"),
    ("an item that no one put", QUEUE, "6 a 4", "6 - 0 hostgot y 0 00000008\n6 a 4", "link"),
    ("a miss at a link that holds an item", QUEUE, "5 b 5 got 0 0 00000007", "5 b 5 missed get 0", "link"),
    ("a wait at a link that holds an item", QUEUE, "5 b 5 got 0 0 00000007", "5 b 5 wait get 0", "link"),
    ("a miss at a link with room", QUEUE, "1 a 1 sent 0 0 00000007", "1 a 1 missed put 0", "link"),
    ("a wait at a link with room", QUEUE, "1 a 1 sent", "0 a 0 wait put 0\n1 a 1 sent", "link"),
    ("a put into a full link", QUEUE, "3 a 3 missed put 0", "3 a 3 sent 0 0 00000008", "link"),
    ("room in a full link", QUEUE, "3 a 3 missed put 0", "3 a 3 room 0", "link"),
    ("an item of the host for a full link", TAKES, "48 took nonmaskable\n",
     "48 took nonmaskable\n61 - 0 hostsent o 0 00000000\n62 - 0 hostsent o 0 00000000\n", "link"),
    ("a put to a port that leads nowhere", QUEUE, "6 a 4 sent 0", "6 a 4 sent 9", "link"),
    ("a take one act late", TAKES, "23 c 23 took interrupt", "24 c 24 took interrupt", "take"),
    ("an interrupt that is passed over", TAKES, "29 c 29 linedown\n", "", "take"),
    ("an interrupt with the line low", TAKES, "19 c 19 lineup\n", "", "take"),
    ("an interrupt after the line went down", TAKES, "23 c 23 took", "23 c 23 linedown\n23 c 23 took", "take"),
    ("an interrupt in its handler", TAKES, "26 c 26 wrote", "24 c 24 took interrupt\n26 c 26 wrote", "take"),
    ("an interrupt in the place of a break", TAKES, "20 c 20 took break", "20 c 20 took interrupt", "views"),
    ("a break while another is in progress", TAKES, "20 c 20 took break", "18 c 18 took break", "take"),
    ("a break before its cycle", TAKES, "60 c 48 took nonmaskable", "59 c 48 took nonmaskable", "take"),
    ("a break taken twice", TAKES, "60 c 48 took nonmaskable\n", "60 c 48 took nonmaskable\n61 c 49 took nonmaskable\n", "take"),
    ("a break of another kind", TAKES, "60 c 48 took nonmaskable", "60 c 48 took break", "take"),
    ("a take beyond the last act", TAKES, "60 c 48 took nonmaskable", "60 c 51 took nonmaskable", "take"),
    ("another item than the core's", TAKES, "45 c 45 sent 0 0 00000003\n46 - 0 hostgot o 0 00000003",
     "45 c 45 sent 0 0 00000004\n46 - 0 hostgot o 0 00000004", "views"),
    ("an act without its entry", TAKES, "9 c 9 wrote 4120001C 00000003\n", "", "views"),
    ("an answer to no question", TAKES, "9 c 9 wrote", "8 c 8 slept\n9 c 9 wrote", "views"),
    ("a tick before its turn", QUEUE, "4 a 4 wait put 0\n4 b 4 seen 0 0 00000007", "4 b 4 seen 0 0 00000007\n4 a 4 wait put 0", "order"),
    ("a host after the ticks", TAKES, "45 - 0 hostgot o 0 00000000\n45 c 45 sent 0 0 00000003",
     "45 c 45 sent 0 0 00000003\n45 - 0 hostgot o 0 00000000", "order"),
    ("a small digit", TAKES, "9 c 9 wrote 4120001C", "9 c 9 wrote 4120001c", "text"),
    ("a core of another board", TAKES, "17 c 17", "17 d 17", "text"),
]

# A journal from a line on later by so many cycles is still right, and by one more not: core a has 64 x 5 ticks for its act 4
# and two in which the link was full, and core b 64 x 6 for its act 5 while the link remains full.
DELAYS = [
    ("a put after room came", QUEUE, "6 a 4 sent", 64 * 5 + 2 - 7),
    ("a get while another core waits", QUEUE, "5 b 5 got", 64 * 6 - 6),
    ("a core that has no item at the end", QUEUE, None, 64 * 8 - 1 - 7),
]

# cores that have all the time, whether cycles pass with an item of the host in the link or without entries
RESTS = [
    ("a sleeper before its break", TAKES, "60 c 48 took", "o"),
    ("a core that stopped", STOP, None, "l"),
]


class Right:
    """A board, and what a run of it left; `journal` is what it must be."""

    def __init__(self, file, images, done, journal):
        check("a journal", done.files["journal"].decode(), journal)
        self.file, self.images, self.journal, self.report = file, images, journal, done.out

    def laws(self, journal, report=None):
        """The laws that another journal of the board breaks."""
        return {law for law, _ in journal_laws.faults(self.file, self.images, journal, report or self.report)}

    def delayed(self, line, cycles, link=None):
        """The journal and the report with all that comes from this line on later, or the end alone; the host puts an item into
        the link, and takes it out, in the cycles before."""
        place = self.journal.index(line) if line else len(self.journal)
        before, late = self.journal[:place], [entry.split(" ", 1) for entry in self.journal[place:].splitlines()]
        *head, end, rest = self.report.split(" ", 4)
        first = int(line.split()[0] if line else end)
        busy = [f"{first + k} - 0 {'hostgot' if k % 2 else 'hostsent'} {link} 0 00000000\n" for k in range(cycles) if link]
        return (before + "".join(busy) + "".join(f"{int(cycle) + cycles} {what}\n" for cycle, what in late),
                " ".join([*head, str(int(end) + cycles), rest]))


def run(text, listed, journal):
    images = {name: test_board.image_of(words) for name, words in listed.items()}
    return Right(parsed(text.encode()), images, test_board.run(text, images), journal)


def takes():
    with tempfile.TemporaryDirectory() as folder:
        done = board.call(folder, directed_boards.write_board(TAKES_PROGRAM, "plain", folder))
        text, image = (pathlib.Path(folder, name).read_bytes() for name in ("board.toml", "c.elf"))
    return Right(parsed(text), {"c.elf": image}, done, TAKES)


def parsed(text):
    return board_rules.least_fault(text)[1]


def altered(rights):
    for what, journal, old, new, law in ALTERED:
        check(f"lines of {what}", journal.count(old), 1)
        found = rights[journal].laws(journal.replace(old, new))
        assert law in found, f"{what}: breaks {found or 'no law'}, and not {law}"


def delays(rights):
    for what, journal, line, most in DELAYS:
        right = rights[journal]
        check(what, right.laws(*right.delayed(line, most)), set())
        check(f"{what}, later by one", right.laws(*right.delayed(line, most + 1)), {"progress"})
    for what, journal, line, link in RESTS:
        for busy in (None, link):
            check(what, rights[journal].laws(*rights[journal].delayed(line, 10_000, busy)), set())


def main():
    rights = {QUEUE: run(test_board.relay_text(), QUEUE_IMAGES, QUEUE), STOP: run(STOP_TEXT, STOP_IMAGES, STOP), TAKES: takes()}
    for journal, right in rights.items():
        check("the laws that a right journal breaks", right.laws(journal), set())
    altered(rights)
    delays(rights)
    print("laws of journals: right journals keep them, and each altered one is refused")


if __name__ == "__main__":
    main()
