"""A project file as its extensions, items, beans, recorders and steps, each with its place.

`Project.of` takes whatever it understands of a file and passes over the rest, so that a file which the
program refuses can be spoken of too; what is wrong with a file is the program's to say."""

import os
import re
from dataclasses import dataclass, field
from functools import cached_property

from . import toml_tree
from .body import read_body
from .source import Source

ATOM = re.compile(r'\.?([A-Za-z0-9_-]+|"(?:[^"\\]|\\.)*")|\[(\d+)\]')


@dataclass
class Entry:
    """One entry of `consumes`, `produces`, `finals`, `only_if` or `only_if_not` with its marks."""

    name: str
    marks: list
    start: int
    end: int


@dataclass
class Item:
    name: str
    kind: str
    key: str
    extension: str
    start: int
    end: int


@dataclass
class Bean:
    name: str
    fields: list
    start: int
    end: int


@dataclass
class Method:
    name: str
    recorder: str
    params: list
    body: object
    start: int
    end: int

    def reading(self):
        return read_body(body_text(self.body), True, self.params)


@dataclass
class Recorder:
    name: str
    fields: list
    statics: list
    methods: list
    start: int
    end: int

    def method(self, name):
        return next((it for it in self.methods if it.name == name), None)


@dataclass
class Step:
    """A build step; `body` is the node of its text, or None."""

    number: int
    extension: str
    name: str
    consumes: list
    produces: list
    record: str
    only_if: list
    only_if_not: list
    body: object
    start: int
    end: int

    @property
    def full_name(self):
        return f"{self.extension}.{self.name}"

    def reading(self):
        return read_body(body_text(self.body))

    def consumed(self, item):
        return next((it for it in self.consumes if it.name == item), None)

    def produced(self, item):
        return next((it for it in self.produces if it.name == item), None)


@dataclass
class Project:
    """What a file declares, in the order of the file."""

    source: Source
    tree: object
    app: str = ""
    config: dict = field(default_factory=dict)
    finals: list = field(default_factory=list)
    extensions: list = field(default_factory=list)
    items: list = field(default_factory=list)
    beans: list = field(default_factory=list)
    recorders: list = field(default_factory=list)
    steps: list = field(default_factory=list)

    @staticmethod
    def of(source):
        """The project of a text; raises TomlFault where it is no TOML."""
        project = Project(source, toml_tree.read(source.text))
        Filler(project).fill()
        return project

    @cached_property
    def declared(self):
        """What is declared, by its kind and name; the first of several."""
        found = {}
        for kind in ("items", "beans", "recorders"):
            for it in getattr(self, kind):
                found.setdefault((kind, it.name), it)
        for step in self.steps:
            found.setdefault(("steps", step.full_name), step)
        return found

    def item(self, name):
        return self.declared.get(("items", name))

    def bean(self, name):
        return self.declared.get(("beans", name))

    def recorder(self, name):
        return self.declared.get(("recorders", name))

    def step(self, full_name):
        return self.declared.get(("steps", full_name))

    def methods(self):
        return [method for recorder in self.recorders for method in recorder.methods]

    def config_keys(self):
        """The keys of `config` in byte order, by which paths number them."""
        return sorted(self.config, key=lambda key: key.encode())

    def at(self, path):
        """The node at a path like `extensions[0].steps[2].consumes[1]`, with the nodes above it; the
        last is None where nothing stands at the path."""
        nodes = [self.tree]
        atoms = path_atoms(path)
        for place, atom in enumerate(atoms):
            node = nodes[-1]
            if isinstance(atom, int) and place == 1 and atoms[0] == "config" and node.kind == "table":
                keys = self.config_keys()
                node = node.get(keys[atom]) if atom < len(keys) else None
            elif isinstance(atom, int):
                node = node.value[atom] if node.kind == "array" and atom < len(node.value) else None
            else:
                node = node.get(atom)
            nodes.append(node)
            if node is None:
                break
        return nodes


def path_atoms(path):
    """A path's keys and numbers."""
    found = []
    for key, number in ATOM.findall(path):
        found.append(int(number) if number else unquoted(key))
    return found


def unquoted(key):
    """A key of a path without its quotes."""
    if not key.startswith('"'):
        return key
    plain = re.sub(r"\\u\{([0-9a-f]+)\}", lambda it: chr(int(it.group(1), 16)), key[1:-1])
    return re.sub(r"\\(.)", lambda it: {"n": "\n", "t": "\t"}.get(it.group(1), it.group(1)), plain)


def body_text(node):
    """The text of a body's node; an absent one is empty."""
    return node.value if node is not None else ""


class Filler:
    """Goes over a file's tree and puts what it finds into a project."""

    def __init__(self, project):
        self.project = project

    def fill(self):
        project, tree = self.project, self.project.tree
        project.app = text(tree.get("app"))
        config = tree.get("config")
        if config is not None and config.kind == "table":
            project.config = {key: it.node.value is True for key, it in config.value.items()}
        project.finals = entries(tree.get("finals"))
        for node in tables(tree.get("extensions")):
            self.extension(node)

    def extension(self, node):
        project, name = self.project, text(node.get("name"))
        project.extensions.append(name)
        for it in tables(node.get("items")):
            project.items.append(Item(text(it.get("name")), text(it.get("kind")), text(it.get("key")), name, *place(it)))
        for it in tables(node.get("beans")):
            project.beans.append(Bean(text(it.get("name")), texts(it.get("fields")), *place(it)))
        for it in tables(node.get("recorders")):
            project.recorders.append(self.recorder(it))
        for it in tables(node.get("steps")):
            project.steps.append(self.step(it, name))

    def recorder(self, node):
        name = text(node.get("name"))
        methods = [Method(text(it.get("name")), name, texts(it.get("params")), text_node(it.get("body")), *place(it)) for it in tables(node.get("methods"))]
        return Recorder(name, texts(node.get("fields")), texts(node.get("statics")), methods, *place(node))

    def step(self, node, extension):
        lists = [entries(node.get(key)) for key in ("consumes", "produces")]
        conditions = [entries(node.get(key)) for key in ("only_if", "only_if_not")]
        number = len(self.project.steps)
        return Step(number, extension, text(node.get("name")), *lists, text(node.get("record")), *conditions, text_node(node.get("body")), *place(node))


def text_node(node):
    return node if node is not None and node.kind == "text" else None


def text(node):
    return node.value if text_node(node) else ""


def tables(node):
    """The tables of a list of tables."""
    return [it for it in node.value if it.kind == "table"] if node is not None and node.kind == "array" else []


def text_nodes(node):
    return [it for it in node.value if it.kind == "text"] if node is not None and node.kind == "array" else []


def texts(node):
    return [it.value for it in text_nodes(node)]


def entries(node):
    found = []
    for it in text_nodes(node):
        name, *marks = it.value.split(" ")
        found.append(Entry(name, marks, it.start, it.end))
    return found


def place(node):
    """Where a table is named: its name's text, else its beginning."""
    name = node.get("name")
    return (name.start, name.end) if name is not None else (node.start, min(node.start + 1, node.end))


class Unreadable(Exception):
    """Why a file can't be read as a project file, in words, with the place."""


def load(path):
    """The project of a file; raises Unreadable."""
    try:
        with open(path, "rb") as file:
            source = Source(path, file.read().decode("utf-8").replace("\r\n", "\n"))
        return Project.of(source)
    except OSError as fault:
        raise Unreadable(f"{path}: {os.strerror(fault.errno).lower()}") from fault
    except UnicodeDecodeError as fault:
        raise Unreadable(f"{path}: the file is no UTF-8") from fault
    except toml_tree.TomlFault as fault:
        raise Unreadable(f"{source.place(fault.offset)}: {fault.message}") from fault
