"""What is wrong where, for a line that begins with `project refused: `."""

import re
import tomllib

from . import toml_tree
from .body import KEYWORDS
from .explain_body import BodyTeller
from .project import Project, path_atoms
from .schema import Checker, described, load
from .words import both, count, did_you_mean, either, quoted

WORDS = "not TOML|wrong field|wrong name|repeated|unknown name|wrong token|too deep|syntax|wrong use"
LINE = re.compile(rf"(?P<path>.*?): (?:token (?P<token>\d+): )?(?P<word>{WORDS}|(?P<sum>\d+) is over the limit)$")
WHAT = {"items": "item", "beans": "bean", "recorders": "recorder", "methods": "method", "steps": "step", "extensions": "extension"}


def explain(source, content, line):
    """The explanation of a project's fault; `content` has the file's bytes."""
    found = LINE.match(line)
    if not found:
        return f"no fault of a project is written so: {line}"
    if found["path"] == "file":
        return explain_file(source, content, found)
    try:
        project = Project.of(source)
    except toml_tree.TomlFault as fault:
        return source.show(fault.offset, None, f"this reader finds no TOML here: {fault.message}")
    teller = Teller(project, found["path"])
    if found["token"] is not None:
        return teller.body_fault(int(found["token"]), found["word"])
    if found["sum"]:
        return teller.limit(int(found["sum"]))
    return getattr(teller, found["word"].replace(" ", "_"))()


def explain_file(source, content, found):
    """Faults of the file as a whole."""
    if found["word"] != "not TOML":
        return f"{source.name}: the file has {len(content):,} bytes; a project file has at most 1,048,576"
    try:
        content.decode("utf-8")
    except UnicodeDecodeError as fault:
        before = content[: fault.start]
        line, column = before.count(b"\n") + 1, len(before) - before.rfind(b"\n")
        return f"{source.name}:{line}:{column}: the byte {content[fault.start]:02x} belongs to no character of UTF-8; save the file as UTF-8"
    try:
        toml_tree.read(source.text)
    except toml_tree.TomlFault as fault:
        return source.show(fault.offset, None, fault.message) + hint_at(source, fault)
    try:
        tomllib.loads(source.text)
    except tomllib.TOMLDecodeError as fault:
        return f"{source.name}: no TOML by Python's reader: {fault}"
    return f"{source.name}: two readers of Python take this file as TOML; values may be nested too deep, or a line ends with a carriage return alone"


def hint_at(source, fault):
    """A hint for what is often meant where a file is no TOML."""
    line = source.line(source.line_and_column(fault.offset)[0])
    if "no value" in fault.message and re.search(r"=\s*(True|False|None|yes|no|on|off)\b", line):
        return "\n  truth values are written `true` and `false`"
    if "isn't closed on its line" in fault.message:
        return "\n  a text of several lines stands in \"\"\" or ''' quotes"
    if "end here" in fault.message and line.count("'") > 2:
        return "\n  a text in single quotes ends at the next single quote; ''' quotes may hold one"
    if "=" in fault.message and re.match(r"\s*\w+\s*:", line):
        return "\n  a key and its value are joined by `=`, and not by `:`"
    return ""


class Teller:
    """Tells what is wrong at one path of a project's file."""

    def __init__(self, project, path):
        self.project = project
        self.source = project.source
        self.path = path
        self.atoms = path_atoms(path)
        self.nodes = project.at(path)
        self.node = self.nodes[-1]
        self.schemas = Checker(load()).at(self.atoms)
        self.schema = self.schemas[-1]

    def owner(self):
        """What the path lies in, in words, as `the step web.router`."""
        names = []
        for place, atom in enumerate(self.atoms[:-1]):
            node = self.nodes[place + 2] if place + 2 < len(self.nodes) else None
            if atom in WHAT and isinstance(self.atoms[place + 1], int) and node is not None:
                name = node.get("name")
                names.append((WHAT[atom], name.value if name is not None and name.kind == "text" else f"number {self.atoms[place + 1]}"))
        if not names:
            return ""
        if names[-1][0] in ("step", "method") and len(names) > 1:
            return f"the {names[-1][0]} {names[-2][1]}.{names[-1][1]}"
        return f"the {names[-1][0]} {names[-1][1]}"

    def show(self, message, *notes):
        """The place of the path with a message, and notes below it."""
        node = self.node
        above = next(it for it in reversed(self.nodes) if it is not None)
        if node is None:
            start, end = above.start, above.end if above.kind != "table" or above.origin == "header" else above.start + 1
            end = min(end, start + 60) if above is not self.project.tree else start
        else:
            start, end = node.start, node.end
            entry = self.key_entry()
            if entry and (node.kind in ("table", "array") or self.schema is None):
                start, end = entry.start, entry.end
        return self.show_at(start, end, message, *notes)

    def show_at(self, start, end, message, *notes):
        lines = [self.source.show(start, max(end, start + 1), message)]
        owner = self.owner()
        lines += [f"  {it}" for it in (*notes, f"in {owner}" if owner else "") if it]
        return "\n".join(lines)

    def key_entry(self):
        """The key at the path's end with its place, or None."""
        if len(self.nodes) < 2 or self.nodes[-2] is None or self.nodes[-2].kind != "table" or isinstance(self.atoms[-1], int):
            return None
        return self.nodes[-2].value.get(self.atoms[-1])

    def wrong_field(self):
        last = self.atoms[-1]
        if self.schema is None:
            known = list(self.schemas[-2].get("properties", {})) if len(self.schemas) > 1 and self.schemas[-2] else []
            return self.show(f"no key `{last}` stands here", did_you_mean(str(last), known), f"the keys here are {both(f'`{it}`' for it in known)}" if known else "")
        if self.node is None:
            return self.show(f"the key `{last}` is absent", f"it is {described(self.schema)}", self.when_required())
        if self.path == "java" and self.project.at("format")[-1].value == 1:
            return self.show("`java` belongs to format 2", "write `format = 2`, or leave `java` out: format 1 means 17")
        if last == "key" and self.node.kind == "text":
            return self.show("`key` belongs to ordered items alone", 'write `kind = "ordered"`, or leave `key` out')
        return self.show(f"{self.found()} doesn't fit here", f"what fits is {self.fitting()}", self.near_value())

    def when_required(self):
        if self.path == "java":
            return "format 2 asks for it"
        return "every ordered item has one: the field with the whole number by which values are sorted" if self.atoms[-1] == "key" else ""

    def found(self):
        """What stands at the path, in words."""
        node = self.node
        if node.kind == "text":
            return f"the text {quoted(node.value)}" if node.value else "an empty text"
        if node.kind in ("table", "array"):
            return "a table" if node.kind == "table" else "a list"
        shown = str(node.value).lower() if node.kind == "truth value" else node.value
        return f"the {node.kind} {shown}"

    def list_name(self):
        """The key of the list that the path's last number counts, or its last key."""
        return next((it for it in reversed(self.atoms) if not isinstance(it, int)), "")

    def fitting(self):
        if isinstance(self.atoms[-1], int):
            marks = {"consumes": "`T` or `T optional`", "produces": "`T`, `T weak`, `T overridable` or `T weak overridable`"}
            if self.list_name() in marks:
                return f"a text: {marks[self.list_name()]}, T an item, with single spaces"
        return described(self.schema)

    def near_value(self):
        """A near word where the value is one of a few, or a mark."""
        if self.node.kind != "text":
            return ""
        if "enum" in self.schema:
            return did_you_mean(self.node.value, [it for it in self.schema["enum"] if isinstance(it, str)])
        name, *marks = self.node.value.split(" ")
        known = {"consumes": ["optional"], "produces": ["weak", "overridable"]}.get(self.list_name(), [])
        if "" in marks:
            return "two spaces stand side by side, or one at the end"
        if marks == ["overridable", "weak"]:
            return f"the order is `{name} weak overridable`"
        for mark in marks:
            if mark not in known:
                return did_you_mean(mark, known)
        return ""

    def wrong_name(self):
        name, node = self.written_name(), self.node
        if node is not None and node.kind == "text" and name != node.value:
            return self.show(f"{quoted(name)} is no name", why_no_name(name))
        if self.atoms[0] == "config" and len(self.atoms) == 2:
            key = self.project.config_keys()[self.atoms[1]]
            entry = self.nodes[1].value[key]
            return self.show_at(entry.start, entry.end, f"{quoted(key)} is no name", why_no_name(key))
        return self.show(f"{quoted(name)} is no name", why_no_name(name))

    def written_name(self):
        """The name at the path; of an entry with marks the item alone."""
        text = self.node.value if self.node is not None and self.node.kind == "text" else ""
        return text.split(" ")[0] if self.list_name() in ("consumes", "produces") else text

    def repeated(self):
        name = self.written_name()
        first = self.first_of(name)
        note = f"first in {self.source.place(first)}" if first is not None and first != self.node.start else ""
        kinds = {"items": "items", "beans": "beans", "recorders": "recorders", "extensions": "extensions"}
        group = self.atoms[-3] if len(self.atoms) > 2 and self.atoms[-1] == "name" else ""
        hint = f"the names of {kinds[group]} are unique in the whole file" if group in kinds else ""
        return self.show(f"{name} stands here a second time", note, hint)

    def first_of(self, name):
        """Where the name stands first among its like."""
        if self.atoms[-1] != "name":
            return next((it.start for it in self.nodes[-2].value if it.kind == "text" and it.value.split(" ")[0] == name), None)
        group = self.atoms[-3]
        if group in ("items", "beans", "recorders"):
            return next((it.start for it in getattr(self.project, group) if it.name == name), None)
        names = [it.get("name") for it in self.nodes[-3].value if it.kind == "table"]
        return next((it.start for it in names if it is not None and it.value == name), None)

    def unknown_name(self):
        name = self.written_name()
        if self.list_name() in ("only_if", "only_if_not"):
            keys = list(self.project.config)
            own = f"{'its key is' if len(keys) == 1 else 'its keys are'} {both(keys)}"
            return self.show(f"`config` has no key {name}", did_you_mean(name, keys), own if keys else f"write `config = {{{name} = true}}` or `false`")
        items = [it.name for it in self.project.items]
        return self.show(f"no extension declares an item {name}", did_you_mean(name, items), f'declare it: `items = [{{name = "{name}", kind = "simple"}}]`')

    def limit(self, found):
        whole = {"items": 2048, "steps": 2048, "beans": 1024, "recorders": 256, "methods": 1024}
        last = self.atoms[-1]
        if last == "body":
            return self.show(f"this body has {found:,} bytes; a body has at most 65,535", "split the step, or move parts of the text into items")
        if last in whole:
            return self.show(f"with this list the file has {count(found, WHAT[last])}; it may have {whole[last]:,}")
        most = self.schema.get("maxItems") or self.schema.get("maxProperties")
        return self.show(f"this list has {found:,} entries; it may have {most:,}")

    def body_fault(self, number, word):
        return BodyTeller(self, number, word).told()


def why_no_name(name):
    """What keeps a text from being a name."""
    if name in KEYWORDS:
        return f"`{name}` is a word of the language of bodies"
    if len(name) > 64:
        return f"it has {len(name)} characters; a name has at most 64"
    if not name:
        return "a name has at least one letter"
    if not (name[0].isascii() and name[0].isalpha()):
        return "a name begins with a letter from A to Z or a to z"
    wrong = sorted({it for it in name if not (it.isascii() and (it.isalnum() or it == "_"))})
    return f"a name has letters, digits and `_` alone, and no {either(quoted(it) for it in wrong)}"
