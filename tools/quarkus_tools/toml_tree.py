"""A reader of TOML 1.1 that keeps where each key and value stands in the file.

`read` gives the tree of a text, or raises `TomlFault` with the place where the text stops being TOML.
Python's own reader tells no places of values, and reads TOML 1.0."""

import re
from dataclasses import dataclass, field

BARE_KEY = re.compile(r"[A-Za-z0-9_-]+")
INTEGER = re.compile(r"[+-]?(?:0|[1-9](?:_?[0-9])*)$")
BASED = re.compile(r"0x[0-9A-Fa-f](?:_?[0-9A-Fa-f])*$|0o[0-7](?:_?[0-7])*$|0b[01](?:_?[01])*$")
FLOAT = re.compile(r"[+-]?(?:inf|nan|(?:0|[1-9](?:_?[0-9])*)(?:\.[0-9](?:_?[0-9])*)?(?:[eE][+-]?[0-9](?:_?[0-9])*)?)$")
DATE = re.compile(r"\d{4}-\d\d-\d\d(?:[Tt ]\d\d:\d\d(?::\d\d(?:\.\d+)?)?(?:[Zz]|[+-]\d\d:\d\d)?)?$|\d\d:\d\d(?::\d\d(?:\.\d+)?)?$")
PLAIN = re.compile(r"[^\s,\]}#=]+")
RUN = re.compile(r"[^\x00-\x1f\x7f\\\"']*")
SPACE = re.compile(r"[ \t]*")
ESCAPES = {"b": "\b", "t": "\t", "n": "\n", "f": "\f", "r": "\r", "e": "\x1b", '"': '"', "\\": "\\"}
DIGITS = {"x": 2, "u": 4, "U": 8}
# How many lists and tables may lie in one another, and how many parts a key may have.
DEEPEST = 80


class TomlFault(Exception):
    """Why a text is no TOML, and at which character."""

    def __init__(self, offset, message):
        super().__init__(message)
        self.offset = offset
        self.message = message


@dataclass
class Node:
    """A value and where it stands. A table's `value` maps keys to `Entry`, an array's is a list of
    nodes. A text's `places` has the offset of each of its characters, and of its end."""

    kind: str
    value: object
    start: int
    end: int
    places: list = None
    origin: str = ""

    def plain(self):
        """The value as Python's own reader would give it; floats and dates stay texts."""
        if self.kind == "table":
            return {key: entry.node.plain() for key, entry in self.value.items()}
        if self.kind == "array":
            return [node.plain() for node in self.value]
        return self.value

    def get(self, key):
        """The node at the key of a table, or None."""
        entry = self.value.get(key) if self.kind == "table" else None
        return entry.node if entry else None


@dataclass
class Entry:
    """A key of a table with its value, and where the key stands."""

    start: int
    end: int
    node: Node = field(repr=False)


def new_table(start, origin):
    """An empty table; its origin says what may still add to it: header, super, dotted or inline."""
    return Node("table", {}, start, start, origin=origin)


class Reader:
    """Reads one text from front to back."""

    def __init__(self, text):
        self.text = text
        self.at = 0
        self.root = new_table(0, "header")

    def fail(self, message, offset=None):
        raise TomlFault(self.at if offset is None else offset, message)

    def peek(self, width=1):
        return self.text[self.at : self.at + width]

    def space(self):
        self.at = SPACE.match(self.text, self.at).end()

    def comment(self):
        """A comment up to the end of its line, which stays."""
        while self.at < len(self.text) and self.text[self.at] not in "\r\n":
            if ord(self.text[self.at]) < 0x20 and self.text[self.at] != "\t" or self.text[self.at] == "\x7f":
                self.fail("a control character may not stand in a comment")
            self.at += 1

    def newline(self):
        """One line's end; False where none is here."""
        if self.peek() == "\n":
            self.at += 1
        elif self.peek(2) == "\r\n":
            self.at += 2
        else:
            return False
        return True

    def gap(self):
        """Spaces, line ends and comments."""
        while True:
            self.space()
            if self.peek() == "#":
                self.comment()
            elif not self.newline():
                return

    def document(self):
        """The whole text, line by line."""
        if self.peek() == "\ufeff":
            self.at += 1
        table = self.root
        while True:
            self.gap()
            if self.at >= len(self.text):
                return self.root
            if self.peek() == "[":
                table = self.header()
            else:
                self.pair(table)
            self.space()
            if self.peek() == "#":
                self.comment()
            if self.at < len(self.text) and not self.newline():
                self.fail("the line has to end here")

    def header(self):
        """A table's header, in one or two brackets; gives the table that the lines below it fill."""
        start = self.at
        many = self.peek(2) == "[["
        self.at += 2 if many else 1
        self.space()
        keys = self.keys()
        closing = "]]" if many else "]"
        if self.peek(len(closing)) != closing:
            self.fail(f"a table's header ends with {closing}")
        self.at += len(closing)
        table = self.root
        for name, begin, end in keys[:-1]:
            table = self.step_into(table, name, begin, end)
        name, begin, end = keys[-1]
        made = new_table(start, "header")
        made.end = self.at
        entry = table.value.get(name)
        if many:
            if entry is None:
                table.value[name] = Entry(begin, end, Node("array", [made], start, self.at, origin="header"))
            elif entry.node.kind == "array" and entry.node.origin == "header":
                entry.node.value.append(made)
            else:
                self.fail(f"{name} is there already, and is no list of tables", begin)
            return made
        if entry is None:
            table.value[name] = Entry(begin, end, made)
            return made
        if entry.node.kind == "table" and entry.node.origin == "super":
            entry.node.origin, entry.node.start, entry.node.end = "header", start, self.at
            return entry.node
        self.fail(f"the table {name} is there already", begin)

    def step_into(self, table, name, begin, end):
        """The table at one name of a header's path, made where it is absent."""
        entry = table.value.get(name)
        if entry is None:
            made = new_table(begin, "super")
            table.value[name] = Entry(begin, end, made)
            return made
        if entry.node.kind == "array" and entry.node.origin == "header":
            return entry.node.value[-1]
        if entry.node.kind == "table" and entry.node.origin != "inline":
            return entry.node
        self.fail(f"{name} is a value, and no table can stand in it", begin)

    def keys(self):
        """One key, or several with dots between them, each with its place."""
        found = []
        while True:
            self.space()
            start = self.at
            if self.peek() in ('"', "'") and self.peek():
                if self.peek(3) in ('"""', "'''"):
                    self.fail("a key is written on one line, in single quotes")
                found.append((self.string().value, start, self.at))
            else:
                bare = BARE_KEY.match(self.text, self.at)
                if not bare:
                    self.fail("a key has to stand here")
                self.at = bare.end()
                found.append((bare.group(), start, self.at))
            self.space()
            if self.peek() != ".":
                return found
            if len(found) == DEEPEST:
                self.fail(f"a key has at most {DEEPEST} parts")
            self.at += 1

    def pair(self, table, depth=0):
        """A key, `=` and a value, put into the table."""
        keys = self.keys()
        for name, begin, end in keys[:-1]:
            entry = table.value.get(name)
            if entry is None:
                entry = table.value[name] = Entry(begin, end, new_table(begin, "dotted"))
            if entry.node.kind != "table" or entry.node.origin != "dotted":
                self.fail(f"{name} is there already, and a dotted key can't add to it", begin)
            table = entry.node
        name, begin, end = keys[-1]
        if self.peek() != "=":
            self.fail("behind a key stands =")
        self.at += 1
        self.space()
        if name in table.value:
            self.fail(f"the key {name} stands here a second time", begin)
        node = self.value(depth)
        table.value[name] = Entry(begin, end, node)
        table.end = max(table.end, node.end)

    def value(self, depth):
        first = self.peek()
        if depth >= DEEPEST and first and first in "[{":
            self.fail(f"lists and tables lie at most {DEEPEST} deep in one another")
        if first in ('"', "'") and first:
            return self.string()
        if first == "[":
            return self.array(depth)
        if first == "{":
            return self.inline_table(depth)
        return self.plain()

    def plain(self):
        """A truth value, a number or a date."""
        start = self.at
        found = PLAIN.match(self.text, start)
        if not found:
            self.fail("a value has to stand here")
        word = found.group()
        self.at = found.end()
        if re.match(r"\d{4}-\d\d-\d\d$", word) and re.match(r" \d\d:", self.text[self.at : self.at + 4]):
            more = PLAIN.match(self.text, self.at + 1)
            word += " " + more.group()
            self.at = more.end()
        if word in ("true", "false"):
            return Node("truth value", word == "true", start, self.at)
        if INTEGER.match(word) or BASED.match(word):
            number = int(word.replace("_", ""), 0 if BASED.match(word) else 10)
            if not -(2**63) <= number < 2**63:
                self.fail("an integer has at most 64 bits", start)
            return Node("integer", number, start, self.at)
        if FLOAT.match(word):
            return Node("float", word, start, self.at)
        if DATE.match(word):
            return Node("date", word, start, self.at)
        self.fail(f"{word} is no value: a text stands in quotes", start)

    def array(self, depth):
        """A list in brackets."""
        start = self.at
        self.at += 1
        parts = []
        comma = True
        while True:
            self.gap()
            if self.peek() == "]":
                break
            if not self.peek():
                self.fail(f"the list that begins in line {self.line(start)} isn't closed")
            if not comma:
                self.fail("a list goes on with a comma or ends with ]")
            parts.append(self.value(depth + 1))
            self.gap()
            comma = self.peek() == ","
            if comma:
                self.at += 1
        self.at += 1
        return Node("array", parts, start, self.at)

    def inline_table(self, depth):
        """A table in braces."""
        start = self.at
        self.at += 1
        table = new_table(start, "inline")
        comma = True
        while True:
            self.gap()
            if self.peek() == "}":
                break
            if not self.peek():
                self.fail(f"the table that begins in line {self.line(start)} isn't closed")
            if not comma:
                self.fail("a table goes on with a comma or ends with }")
            self.pair(table, depth + 1)
            self.gap()
            comma = self.peek() == ","
            if comma:
                self.at += 1
        self.at += 1
        table.end = self.at
        for entry in table.value.values():
            close(entry.node)
        return table

    def string(self):
        """A text in one or three quotes of either kind."""
        quote = self.peek()
        start = self.at
        if self.peek(3) == quote * 3:
            self.at += 3
            self.newline()
            return self.long_string(quote, start)
        self.at += 1
        characters, places = [], []
        while True:
            self.plain_characters(characters, places)
            here = self.peek()
            if not here or here in "\r\n":
                self.fail(f"the text that begins with {quote} isn't closed on its line", start)
            if here == quote:
                places.append(self.at)
                self.at += 1
                return Node("text", "".join(characters), start, self.at, places)
            self.character(quote, characters, places)

    def long_string(self, quote, start):
        """The rest of a text behind its three quotes."""
        characters, places = [], []
        while True:
            self.plain_characters(characters, places)
            here = self.peek()
            if not here:
                self.fail(f"the text that begins with {quote * 3} isn't closed", start)
            if self.peek(3) == quote * 3:
                extra = 0
                while extra < 2 and self.text[self.at + 3 + extra : self.at + 4 + extra] == quote:
                    extra += 1
                for more in range(extra):
                    characters.append(quote)
                    places.append(self.at + more)
                places.append(self.at + extra)
                self.at += 3 + extra
                return Node("text", "".join(characters), start, self.at, places)
            if here in "\r\n":
                begin = self.at
                if not self.newline():
                    self.fail("a carriage return stands before a line feed alone")
                characters.append("\n")
                places.append(begin)
            elif here == "\\" and quote == '"' and re.compile(r"\\[ \t]*\r?\n").match(self.text, self.at):
                self.at = re.compile(r"\\[ \t\r\n]*").match(self.text, self.at).end()
            else:
                self.character(quote, characters, places)

    def plain_characters(self, characters, places):
        """The characters of a text up to the next that may mean something."""
        run = RUN.match(self.text, self.at)
        characters += run.group()
        places += range(self.at, run.end())
        self.at = run.end()

    def character(self, quote, characters, places):
        """One character of a text, with an escape where the quotes allow it."""
        begin, here = self.at, self.peek()
        if ord(here) < 0x20 and here != "\t" or here == "\x7f":
            self.fail("a control character may not stand in a text")
        self.at += 1
        if here == "\\" and quote == '"':
            here = self.escape(begin)
        characters.append(here)
        places.append(begin)

    def escape(self, begin):
        """The character that an escape means, behind its backslash."""
        letter = self.peek()
        self.at += 1
        if letter in ESCAPES and letter:
            return ESCAPES[letter]
        width = DIGITS.get(letter)
        digits = self.peek(width) if width else ""
        if not width or not re.fullmatch(rf"[0-9A-Fa-f]{{{width}}}", digits):
            self.fail("this escape isn't one of TOML; in a text in single quotes a \\ stands for itself", begin)
        number = int(digits, 16)
        if number > 0x10FFFF or 0xD800 <= number < 0xE000:
            self.fail("this escape names no character", begin)
        self.at += width
        return chr(number)

    def line(self, offset):
        return self.text.count("\n", 0, offset) + 1


def close(node):
    """What stands in an inline table is added to by nothing behind it."""
    if node.kind == "table" and node.origin == "dotted":
        node.origin = "inline"
        for entry in node.value.values():
            close(entry.node)


def read(text):
    """The tree of a TOML text; raises TomlFault."""
    return Reader(text).document()
