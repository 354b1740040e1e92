"""A file's text with its lines, and how a place in it is shown."""

import re
import unicodedata
from bisect import bisect_right
from dataclasses import dataclass
from functools import cached_property


@dataclass
class Source:
    """A text and the name under which it is shown."""

    name: str
    text: str

    @cached_property
    def starts(self):
        """Where each line begins."""
        return [0, *(it.end() for it in re.finditer("\n", self.text))]

    def line_and_column(self, offset):
        """Line and column of a character, both from 1."""
        offset = max(0, min(offset, len(self.text)))
        line = bisect_right(self.starts, offset)
        return line, offset - self.starts[line - 1] + 1

    def line(self, number):
        """The text of a line, without its end."""
        if not 0 < number <= len(self.starts):
            return ""
        end = self.starts[number] - 1 if number < len(self.starts) else len(self.text)
        return self.text[self.starts[number - 1] : end].rstrip("\r")

    def place(self, offset):
        """Where a character stands, as `app.toml:3:14`."""
        line, column = self.line_and_column(offset)
        return f"{self.name}:{line}:{column}"

    def show(self, start, end=None, message=""):
        """The place with a message, and the line with carets below the characters from start to end."""
        line, column = self.line_and_column(start)
        shown = self.line(line)
        last = len(shown) if end is None else min(len(shown), column - 1 + max(1, end - start))
        head, marked = shown[: column - 1], shown[column - 1 : max(last, column)]
        head, marked, tail = cut(head, marked, shown[max(last, column) :])
        carets = "^" * max(1, width(marked) if end is not None else 1)
        edge = " " * len(str(line))
        lines = [f"{self.place(start)}: {message}" if message else self.place(start)]
        lines += [f" {line} | {flat(head + marked + tail)}", f" {edge} | {' ' * width(head)}{carets}"]
        return "\n".join(lines)


WIDEST = 110


def cut(head, marked, tail):
    """Parts of a line, shortened where they are too long to be seen together."""
    marked = marked[:WIDEST]
    if len(head) + len(marked) > WIDEST:
        head = "..." + head[-max(20, WIDEST - len(marked)) :]
    room = max(20, WIDEST - len(head) - len(marked))
    return head, marked, tail if len(tail) <= room else tail[:room] + "..."


def flat(text):
    """The text with a space for each tab and control character."""
    return "".join(" " if ord(it) < 0x20 or it == "\x7f" else it for it in text)


def width(text):
    """How many columns of a terminal a text takes."""
    return sum(0 if unicodedata.combining(it) else 2 if unicodedata.east_asian_width(it) in "WF" else 1 for it in text)
