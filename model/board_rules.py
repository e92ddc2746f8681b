"""The rules of a board file: the least fault of a text, or None. Apart from the proved program.

A fault is a code and a place, the path of a key cut to 64 bytes. All faults are gathered, and the least is the answer.
"""
import re

import toml_reader

NAME = re.compile(rb"[a-z0-9_]{1,24}")
FILE = re.compile(r"[A-Za-z0-9_./][A-Za-z0-9_./-]{0,63}")
MILLION, MOST_MEMORY = 1_000_000, 1_073_741_824
RANGES = {"clock": (1, MILLION), "depth": (1, 4096), "from_port": (0, 15), "to_port": (0, 15), "irq": (0, 31),
          "every": (1, MILLION), "cycle": (0, MILLION * MILLION), "base": (0, 2**32 - 4096)}
CORES = {"from", "to", "core"}
FILES = {"image", "from_file", "to_file", "output", "input"}
CHOICES = {"pipeline": (611, ("plain", "three", "five", "eight")), "order": (612, ("ascending", "descending", "rotating")),
           "kind": (606, ("break", "nonmaskable"))}
# the keys of a row of each table: those that it needs, and those that may be left out; devices have a clock in version 2 alone
KEYS = {
    "core": ({"image", "pipeline"}, {"clock", "memory"}),
    "link": (set(), {"depth", "from", "from_port", "from_file", "to", "to_port", "to_file"}),
    "timer": ({"core", "base"}, {"irq", "clock"}),
    "intc": ({"core", "base"}, {"clock"}),
    "uart": ({"core", "base", "output"}, {"irq", "input", "every", "clock"}),
    "event": ({"core", "cycle", "kind"}, set()),
}
DEVICES = ("timer", "intc", "uart")
# the most rows of each table in the two versions, and the code of more
MOST = {"core": (16, 64, 615), "link": (64, 256, 616), "timer": (64, 64, 606), "uart": (64, 64, 606), "event": (256, 256, 606)}


def is_number(value):
    return type(value) is int


def is_memory(value):
    return is_number(value) and value % 4096 == 0 and 4096 <= value <= 67_108_864


def value_code(key, value, cores):
    """The code of a value that is wrong in itself, or None."""
    if key in RANGES or key == "memory":
        if not is_number(value):
            return 605
        if key == "memory":
            return None if is_memory(value) else 619
        low, high = RANGES[key]
        return 606 if not low <= value <= high or key == "base" and value % 4096 else None
    if key == "network":
        return None if type(value) is bool else 605
    if type(value) is not str:
        return 605
    if key in CORES:
        return None if value in cores else 608
    if key in FILES:
        return None if FILE.fullmatch(value) else 620
    code, known = CHOICES[key]
    return None if value in known else code


class Rules:
    def __init__(self, tree):
        self.tree, self.faults = tree, []
        self.tables = {table: tree[table] if isinstance(tree.get(table), dict) else {} for table in KEYS}
        self.cores = self.tables["core"]
        version = tree.get("version")
        self.version = version if is_number(version) and version in (1, 2) else None

    def add(self, code, *path):
        self.faults.append((code, ".".join(path).encode()[:64]))

    def keys(self, table):
        """The keys of a row: those that it needs, and those that may be left out."""
        needed, optional = KEYS[table]
        return needed, optional - {"clock"} if table in DEVICES and self.version != 2 else optional

    def rows(self, *tables):
        """Each row that is a table: its table, name and keys."""
        for table in tables:
            for name, row in self.tables[table].items():
                if isinstance(row, dict):
                    yield table, name, row

    def right(self, row, key):
        """The value of a key that is there and right in itself, or None."""
        return row[key] if key in row and value_code(key, row[key], self.cores) is None else None

    def test_top(self):
        if not self.version:
            self.add(602, "version")
        for key, value in self.tree.items():
            if key in KEYS:
                if not isinstance(value, dict):
                    self.add(605, key)
            elif key in ("order", "network"):
                if value_code(key, value, self.cores):
                    self.add(value_code(key, value, self.cores), key)
            elif key != "version":
                self.add(603, key)
        if self.tree.get("core", {}) == {}:
            self.add(604, "core")
        for table, (first, second, code) in MOST.items():
            if len(self.tables[table]) > (second if self.version == 2 else first):
                self.add(code, table)

    def test_rows(self):
        for table in KEYS:
            needed, optional = self.keys(table)
            for name, row in self.tables[table].items():
                if not NAME.fullmatch(name.encode()):
                    self.add(606, table, name)
                if not isinstance(row, dict):
                    self.add(605, table, name)
                    continue
                for key in needed - row.keys():
                    self.add(604, table, name, key)
                for key, value in row.items():
                    code = value_code(key, value, self.cores) if key in needed | optional else 603
                    if code:
                        self.add(code, table, name, key)

    def test_memories(self):
        """The sum of the memories, where each is right."""
        sizes = [row.get("memory", 65_536) if isinstance(row, dict) else None for row in self.cores.values()]
        if all(map(is_memory, sizes)) and sum(sizes) > MOST_MEMORY:
            self.add(619, "core")

    def test_links(self):
        for _, name, row in self.rows("link"):
            whole = [row.keys() & {way, way + "_port", way + "_file"} in ({way, way + "_port"}, {way + "_file"}) for way in ("from", "to")]
            if not all(whole) or {"from_file", "to_file"} <= row.keys():
                self.add(610, "link", name)
        for way in ("from", "to"):
            self.test_twice(609, [((self.right(row, way), self.right(row, way + "_port")), ("link", name, way + "_port")) for _, name, row in self.rows("link")])

    def test_twice(self, code, used):
        """A fault at each later place, by the bytes of the path, of a thing that stands in several."""
        seen = set()
        for thing, path in sorted(used, key=lambda pair: ".".join(pair[1]).encode()):
            if None not in thing:
                if thing in seen:
                    self.add(code, *path)
                seen.add(thing)

    def test_files(self):
        outputs = [((self.right(row, key),), (table, name, key)) for key, tables in (("to_file", ("link",)), ("output", ("uart",)))
                   for table, name, row in self.rows(*tables)]
        self.test_twice(607, outputs)
        read = {self.right(row, key) for key, table in (("from_file", "link"), ("input", "uart"), ("image", "core")) for _, _, row in self.rows(table)}
        for (output,), path in outputs:
            if output is not None and output in read:
                self.add(607, *path)

    def test_devices(self):
        owners = {self.right(row, "core") for _, _, row in self.rows("intc")}
        for table, name, row in self.rows(*DEVICES):
            core, base = self.right(row, "core"), self.right(row, "base")
            if table != "intc" and self.right(row, "irq") is not None and core is not None and core not in owners:
                self.add(604, table, name, "irq")
            owner = self.cores.get(core)
            size = owner.get("memory", 65_536) if isinstance(owner, dict) else None
            if base is not None and is_memory(size) and base < size:
                self.add(613, table, name, "base")
        devices = list(self.rows(*DEVICES))
        self.test_twice(613, [((self.right(row, "core"), self.right(row, "base")), (table, name, "base")) for table, name, row in devices])
        self.test_twice(614, [((self.right(row, "core"), self.right(row, "irq")), (table, name, "irq"))
                              for table, name, row in devices if table != "intc"])
        self.test_twice(614, [((self.right(row, "core"),), ("intc", name, "core")) for _, name, row in self.rows("intc")])

    def test_network(self):
        if self.tree.get("network") is True:
            for code, tables in ((617, DEVICES), (618, ("event",))):
                for table in tables:
                    for name in self.tables[table]:
                        self.add(code, table, name)


def least_fault(data):
    """The code and the place of a board file's least fault, or None; and its tree."""
    try:
        tree = toml_reader.read(data)
    except toml_reader.Refused:
        return (601, b""), None
    rules = Rules(tree)
    for test in (rules.test_top, rules.test_rows, rules.test_memories, rules.test_links, rules.test_files, rules.test_devices, rules.test_network):
        test()
    return min(rules.faults, default=None), tree
