"""Histories, as `build` prints and writes them: lines to events, and values to plain trees."""

import os
import re
from dataclasses import dataclass, field

QUOTED = re.compile(r'"(?:[^"\\]|\\.)*"')
ESCAPE = re.compile(r"\\(?:u\{([0-9a-f]+)\}|(.))")
PROXY = re.compile(r"@(\d+)\.(\d+)\.(static|runtime)")
LIST = re.compile(r"\[#(\d+\.\d+):")
BEAN = re.compile(r"([A-Za-z][A-Za-z0-9_]*)#(\d+\.\d+)\{")
WORD = re.compile(r"null|true|false|-?\d+")
NAMED = re.compile(r"([A-Za-z][A-Za-z0-9_]*): ")
CALL = re.compile(r"  call ([A-Za-z0-9_]+)\.([A-Za-z0-9_]+)\(")


class HistoryFault(Exception):
    """Why something is no history, in words."""


@dataclass
class Event:
    """One event. `word` is start, take, put, end or fail; `text` is what stands behind the step and the
    item, as it was printed; an end has its calls."""

    word: str
    step: str
    item: str = ""
    text: str = ""
    calls: list = field(default_factory=list)

    def lines(self):
        """The event's lines, as they were printed."""
        parts = [self.word, self.step] + [it for it in (self.item, self.text) if it]
        return [" ".join(parts)] + [it.line() for it in self.calls]


@dataclass
class Call:
    """A recorded call; `kept` is the proxy of what it returns, or empty."""

    recorder: str
    method: str
    text: str
    kept: str

    def line(self):
        return f"  call {self.recorder}.{self.method}({self.text})" + (f" -> {self.kept}" if self.kept else "")


def load(out):
    """The events of a build's folder, or of a history's file. Raises HistoryFault."""
    path = os.path.join(out, "history.txt") if os.path.isdir(out) else out
    try:
        with open(path, encoding="utf-8") as file:
            return read(file.read())
    except OSError as fault:
        raise HistoryFault(f"{path}: {os.strerror(fault.errno).lower()}") from fault
    except UnicodeDecodeError as fault:
        raise HistoryFault(f"{path}: the file is no UTF-8") from fault


def read(text):
    """The events of a history's text; a build's last line is passed over. Raises HistoryFault."""
    events = []
    for number, line in enumerate(text.removesuffix("\n").split("\n") if text else [], 1):
        if line.startswith(("built ", "step failed: ")):
            continue
        if not add(events, line):
            raise HistoryFault(f"line {number} is none of a history: {line}")
    return events


def add(events, line):
    """Adds what a line says; False where it says nothing."""
    found = CALL.match(line)
    if found and events and events[-1].word == "end":
        call = read_call(line, found)
        if call is not None:
            events[-1].calls.append(call)
        return call is not None
    words = line.split(" ", 2)
    if words[0] == "start" and len(words) == 2:
        events.append(Event("start", words[1]))
    elif words[0] in ("end", "fail") and len(words) == 3:
        events.append(Event(words[0], words[1], text=words[2]))
    elif words[0] in ("take", "put") and len(words) == 3 and " " in words[2]:
        item, shown = words[2].split(" ", 1)
        events.append(Event(words[0], words[1], item, shown))
    else:
        return False
    return True


def read_call(line, found):
    kept = re.search(r"\) -> (@\d+\.\d+\.(?:static|runtime))$", line)
    end = kept.start() if kept else len(line) - 1
    if line[end : end + 1] != ")":
        return None
    return Call(found.group(1), found.group(2), line[found.end() : end], kept.group(1) if kept else "")


class ValueReader:
    """Reads printed values, for the JSON form of a history."""

    def __init__(self, text):
        self.text = text
        self.at = 0

    def match(self, pattern):
        found = pattern.match(self.text, self.at)
        if found:
            self.at = found.end()
        return found

    def sign(self, sign):
        here = self.text.startswith(sign, self.at)
        if here:
            self.at += len(sign)
        return here

    def value(self):
        """The value that stands next."""
        proxy = self.match(PROXY)
        if proxy:
            return {"proxy": proxy.group()}
        made = self.match(LIST)
        if made:
            return {"list": self.parts("]", self.value), "node": made.group(1)}
        made = self.match(BEAN)
        if made:
            return {"bean": made.group(1), "node": made.group(2), "fields": dict(self.parts("}", self.named))}
        quoted = self.match(QUOTED)
        if quoted:
            return ESCAPE.sub(unescape, quoted.group()[1:-1])
        word = self.match(WORD)
        if not word:
            raise HistoryFault(f"no value stands at {self.text[self.at : self.at + 20]}")
        return {"null": None, "true": True, "false": False}[word.group()] if word.group()[0] in "ntf" else int(word.group())

    def named(self):
        name = self.match(NAMED)
        if not name:
            raise HistoryFault(f"no field stands at {self.text[self.at : self.at + 20]}")
        return name.group(1), self.value()

    def parts(self, closing, part):
        """Parts with commas between them, up to the closing sign."""
        found = []
        self.sign(" ")
        while not self.sign(closing):
            found.append(part())
            if not self.sign(", ") and not self.text.startswith(closing, self.at):
                raise HistoryFault(f"no comma stands at {self.text[self.at : self.at + 20]}")
        return found


def unescape(found):
    digits, letter = found.groups()
    return chr(int(digits, 16)) if digits else {"n": "\n", "t": "\t"}.get(letter, letter)


def value(text):
    """A printed value as a plain tree: a list, a bean and a proxy are objects that say so."""
    return ValueReader(text).value()


def values(text):
    """Values with commas between them, as in a call's parentheses."""
    reader = ValueReader(text + ")")
    return reader.parts(")", reader.value)
