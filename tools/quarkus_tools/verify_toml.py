"""Texts that are TOML and texts that aren't, for the reader of the tools and for the program."""

import os

from . import toml_tree
from .program import run

# Texts behind a right head, and whether they are TOML.
CASES = [
    ("a = [1, 2,]", True),
    ("a = [1,, 2]", False),
    ("a = {b = 1,}", True),
    ("a = {\n  b = 1, # a comment\n  c = 2\n}", True),
    ("a = {b = 1 c = 2}", False),
    (r'a = "\x41\e"', True),
    (r'a = "\q"', False),
    (r'a = "\ud800"', False),
    ("a = '''it's'''", True),
    ("a = 'it's'", False),
    ('a = """"quoted""""', True),
    ('a = """\\\n   joined"""', True),
    ("a = 0x1F\nb = 0o17\nc = 0b11\nd = 1_000", True),
    ("a = 01", False),
    ("a = 1__0", False),
    ("a = 9223372036854775807", True),
    ("a = 9223372036854775808", False),
    ("a = 1.5\nb = inf\nc = 1e3", True),
    ("a = 1.", False),
    ("a = 1979-05-27\nb = 07:32\nc = 1979-05-27 07:32:00Z", True),
    ("a = 1\na = 2", False),
    ("a.b = 1\na.c = 2", True),
    ("a = 1\na.b = 2", False),
    ("[a]\n[a]", False),
    ("[a.b]\n[a]", True),
    ("[a]\nb.c = 1\n[a.b]", False),
    ("[[a]]\n[[a]]\n[a.b]", True),
    ("a = []\n[[a]]", False),
    ("a = {}\n[a.b]", False),
    ("[a] # a comment\r\nb = 1", True),
    ("a = 1 b = 2", False),
    ("a = 1\rb = 2", False),
    ("a = 1 # \x01", False),
    ("a =\n1", False),
    ('"" = 1\n"a b" = 2', True),
    ("é = 1", False),
    ("a = " + "[" * 80 + "]" * 80, True),
    ("a = " + "[" * 81 + "]" * 81, False),
    (".".join("a" * 80) + " = 1", True),
    (".".join("a" * 81) + " = 1", False),
]


def answers(room):
    """Each text, whether it is TOML, and whether the program and the reader take it for that."""
    path = os.path.join(room, "case.toml")
    for text, wanted in CASES:
        whole = 'format = 1\napp = "x"\n' + text + "\n"
        with open(path, "w", encoding="utf-8", newline="") as file:
            file.write(whole)
        by_program = "file: not TOML" not in run(["plan", path])[1]
        try:
            toml_tree.read(whole)
            by_reader = True
        except toml_tree.TomlFault:
            by_reader = False
        yield text, wanted, by_program, by_reader
