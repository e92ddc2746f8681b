"""The tree of a TOML 1.1 text, read strictly, with the limits of board files. Apart from the proved program.

A table is a dict, a list a list, a string a str, and so are numbers and booleans. A date or a time is a `Moment`, since no key
wants one. Refused besides what TOML 1.1 refuses: integers beyond 64 bits, fractions that no float of 64 bits can hold, a key of
more than 80 parts, and lists and inline tables that stand more than 80 deep in one another.
"""
import calendar
import re

LIMIT = 80
BARE = re.compile(r"[A-Za-z0-9_-]+")
WORD = re.compile(r"[A-Za-z0-9_+.:-]+(?: [0-9][A-Za-z0-9_+.:-]*)?")
SPACES = re.compile(r"[ \t]*")
# spaces, line ends, and comments without control characters
BLANK = re.compile(r"(?:[ \t\n]|\r\n|#[^\x00-\x08\x0A-\x1F\x7F]*(?=\n|\r\n|\Z))*")
LINE_CUT = re.compile(r"[ \t]*\r?\n(?:[ \t\n]|\r\n)*")
PLAIN = {'"': re.compile(r'[^\x00-\x08\x0A-\x1F\x7F"\\]*'), "'": re.compile(r"[^\x00-\x08\x0A-\x1F\x7F']*")}
ESCAPES = {"b": "\b", "e": "\x1b", "f": "\f", "n": "\n", "r": "\r", "t": "\t", '"': '"', "\\": "\\"}
HEXADECIMAL = {"x": re.compile("[0-9A-Fa-f]{2}"), "u": re.compile("[0-9A-Fa-f]{4}"), "U": re.compile("[0-9A-Fa-f]{8}")}
RADIX = {"0x": (16, re.compile("[0-9A-Fa-f]+(?:_[0-9A-Fa-f]+)*")), "0o": (8, re.compile("[0-7]+(?:_[0-7]+)*")),
         "0b": (2, re.compile("[01]+(?:_[01]+)*"))}
INTEGER = re.compile("[+-]?(?:0|[1-9](?:_?[0-9])*)")
FRACTION = re.compile(r"[+-]?(?:0|[1-9](?:_?[0-9])*)(?:\.[0-9](?:_?[0-9])*)?(?:[eE][+-]?[0-9](?:_?[0-9])*)?")
TIME = r"([0-9]{2}):([0-9]{2})(?::([0-9]{2})(?:\.[0-9]+)?)?"
MOMENT = re.compile(rf"([0-9]{{4}})-([0-9]{{2}})-([0-9]{{2}})(?:[Tt ]{TIME}(?:[Zz]|[+-]([0-9]{{2}}):([0-9]{{2}}))?)?")
LOCAL_TIME = re.compile(TIME)


class Refused(Exception):
    """The text is no TOML."""


class Moment:
    """A date, a time, or both."""


class Table(dict):
    """A table, with what made it: `passed` by a header, `dotted` by a key, its own `header`; or `value`, which is complete."""

    def __init__(self, made):
        super().__init__()
        self.made = made


class Tables(list):
    """A list of tables that headers in double brackets make."""


def is_moment(word):
    """Whether a word is a date or a time that there is."""
    found = MOMENT.fullmatch(word)
    if found:
        year, month, day, *time, hours, minutes = (int(part or 0) for part in found.groups())
        return (1 <= month <= 12 and 1 <= day <= calendar.monthrange(year or 4, month)[1] and is_time(time)
                and hours < 24 and minutes < 60)
    found = LOCAL_TIME.fullmatch(word)
    return bool(found) and is_time([int(part or 0) for part in found.groups()])


def is_time(parts):
    hour, minute, second = parts
    return hour < 24 and minute < 60 and second <= 60


def integer(value):
    if not -2**63 <= value < 2**63:
        raise Refused("a long integer")
    return value


def scalar(word):
    """What a word without quotes says."""
    if word in ("true", "false"):
        return word == "true"
    if word.lstrip("+-") in ("inf", "nan") and len(word) <= 4:
        return float(word)
    if word[:2] in RADIX:
        radix, form = RADIX[word[:2]]
        if not form.fullmatch(word[2:]):
            raise Refused("a bad number")
        return integer(int(word[2:].replace("_", ""), radix))
    if INTEGER.fullmatch(word):
        digits = word.replace("_", "")
        # Python reads no integers of thousands of digits
        return integer(int(digits) if len(digits) <= 20 else 2**64)
    if FRACTION.fullmatch(word):
        value = float(word.replace("_", ""))
        if value in (float("inf"), float("-inf")):
            raise Refused("a long fraction")
        return value
    if is_moment(word):
        return Moment()
    raise Refused("a bad value")


class Reader:
    def __init__(self, text):
        self.text, self.at = text, 0

    def sees(self, what):
        return self.text.startswith(what, self.at)

    def skip(self, pattern):
        self.at = pattern.match(self.text, self.at).end()

    def take(self, what):
        if not self.sees(what):
            raise Refused(f"no {what}")
        self.at += len(what)

    def match(self, pattern):
        found = pattern.match(self.text, self.at)
        if not found:
            raise Refused("a bad token")
        self.at = found.end()
        return found.group()

    # strings

    def escape(self):
        letter = self.text[self.at:self.at + 1]
        self.at += 1
        if letter in HEXADECIMAL:
            code = int(self.match(HEXADECIMAL[letter]), 16)
            if code > 0x10FFFF or 0xD800 <= code < 0xE000:
                raise Refused("no character")
            return chr(code)
        if letter not in ESCAPES:
            raise Refused("a bad escape")
        return ESCAPES[letter]

    def string(self, may_be_long=True):
        mark = self.text[self.at]
        is_long = may_be_long and self.sees(3 * mark)
        self.at += 3 if is_long else 1
        if is_long and (self.sees("\n") or self.sees("\r\n")):
            self.at += 1 if self.sees("\n") else 2
        parts = []
        while True:
            parts.append(self.match(PLAIN[mark]))
            if self.sees("\\"):
                self.at += 1
                cut = LINE_CUT.match(self.text, self.at) if is_long else None
                if cut:
                    self.at = cut.end()
                else:
                    parts.append(self.escape())
            elif is_long and (self.sees("\n") or self.sees("\r\n")):
                # which line end it is can't be seen in a board
                self.at += 1 if self.sees("\n") else 2
                parts.append("\n")
            elif self.sees(mark):
                if not is_long:
                    self.at += 1
                    return "".join(parts)
                if self.sees(3 * mark):
                    # up to two more belong to the text
                    more = 2 if self.sees(5 * mark) else 1 if self.sees(4 * mark) else 0
                    self.at += 3 + more
                    return "".join(parts) + more * mark
                parts.append(mark)
                self.at += 1
            else:
                raise Refused("an open string")

    # keys and values

    def key(self):
        parts = []
        while True:
            parts.append(self.string(may_be_long=False) if self.sees('"') or self.sees("'") else self.match(BARE))
            self.skip(SPACES)
            if not self.sees("."):
                break
            self.at += 1
            self.skip(SPACES)
        if len(parts) > LIMIT:
            raise Refused("a long key")
        return parts

    def pair(self, depth):
        parts = self.key()
        self.take("=")
        self.skip(SPACES)
        return parts, self.value(depth)

    def value(self, depth):
        """A value in which lists and inline tables may still stand so deep in one another."""
        if self.sees('"') or self.sees("'"):
            return self.string()
        if not (self.sees("[") or self.sees("{")):
            return scalar(self.match(WORD))
        if depth == 0:
            raise Refused("nested too deep")
        opened = self.text[self.at]
        end = "]" if opened == "[" else "}"
        self.at += 1
        found = [] if opened == "[" else Table("value")
        while True:
            self.skip(BLANK)
            if self.sees(end):
                self.at += 1
                break
            if opened == "[":
                found.append(self.value(depth - 1))
            else:
                put(found, *self.pair(depth - 1))
            self.skip(BLANK)
            if self.sees(","):
                self.at += 1
            elif not self.sees(end):
                raise Refused("no comma")
        if opened == "{":
            complete(found)
        return found

    def document(self):
        root = Table("header")
        table = root
        while True:
            self.skip(BLANK)
            if self.at == len(self.text):
                return root
            if self.sees("["):
                brackets = 2 if self.sees("[[") else 1
                self.at += brackets
                self.skip(SPACES)
                path = self.key()
                self.take("]" * brackets)
                table = add_table(root, path, brackets == 2)
            else:
                put(table, *self.pair(LIMIT))
            self.skip(SPACES)
            if self.at < len(self.text) and not (self.sees("\n") or self.sees("\r\n") or self.sees("#")):
                raise Refused("more on a line")


def complete(table):
    """No later key goes into an inline table."""
    table.made = "value"
    for one in table.values():
        if isinstance(one, Table):
            complete(one)


def put(table, path, value):
    """A pair: its key may go through tables that keys or passing headers made, and is new."""
    for part in path[:-1]:
        inner = table.get(part)
        if inner is None:
            inner = table[part] = Table("dotted")
        if not isinstance(inner, Table) or inner.made not in ("dotted", "passed"):
            raise Refused("a key in a table that is defined")
        inner.made = "dotted"
        table = inner
    if path[-1] in table:
        raise Refused("a key twice")
    table[path[-1]] = value


def add_table(root, path, is_element):
    """The table of a header: it goes through any table that isn't a value, and into the last one of a list of tables."""
    table = root
    for part in path[:-1]:
        inner = table.get(part)
        if inner is None:
            inner = table[part] = Table("passed")
        table = inner[-1] if isinstance(inner, Tables) else inner
        if not isinstance(table, Table) or table.made == "value":
            raise Refused("a header in a value")
    there = table.get(path[-1])
    if is_element:
        if there is None:
            there = table[path[-1]] = Tables()
        if not isinstance(there, Tables):
            raise Refused("a list of tables where something is")
        there.append(Table("header"))
        return there[-1]
    if there is None:
        there = table[path[-1]] = Table("header")
    elif isinstance(there, Table) and there.made == "passed":
        there.made = "header"
    else:
        raise Refused("a table twice")
    return there


def read(data):
    """The tree of a text, or `Refused`."""
    try:
        text = data.decode()
    except UnicodeDecodeError:
        raise Refused("no UTF-8") from None
    return Reader(text.removeprefix("\ufeff")).document()
