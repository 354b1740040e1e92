"""What is wrong where, for a line that begins with `step failed: `."""

import re

from .words import both

AT = re.compile(r"(kind|proxy used|value too deep) at (\d+)$")
ITEM = re.compile(r"item (\w+) (twice|without key)$")
PROXY = re.compile(r"runtime proxy @(\d+)\.(\d+)\.runtime in a static step$")
TAKEN = re.compile(r"too much taken of (\w+)$")
LIMITS = {
    "too many turns": "a step may make 100,000 statements and turns of `for`",
    "too many cells": "the values of a step's expressions may have 65,536 cells in all",
    "too much text": "the values of a step's expressions may have 1,048,576 bytes of text in all",
    "text too long": "a text may have 65,535 bytes in modified UTF-8",
    "too much put": "what a step produces may have 4,096 cells and 131,072 bytes of text in all",
    "too many recorded": "what a step records may have 8,192 cells and 131,072 bytes of text in all",
}
KINDS = {
    "+": "`+` adds two numbers or joins two texts; it makes no text of a number",
    "<": "`<` compares two numbers",
    "!": "`!` wants a truth value",
    "&&": "`&&` wants truth values on both sides",
    "len": "`len` counts the elements of a list or the characters of a text",
    "if": "`if` wants a truth value; whether something was taken is told by `get T == null`",
    "for": "`for` goes over a list; `all T` gives one, `get T` gives the value that was put",
    "fail": "`fail` wants a text",
}


def explain(project, events, line):
    """The explanation of a step's failure; `events` has the history before it, where it is at hand."""
    name, reason = line.split(": ", 1)
    step = project.step(name)
    if step is None:
        return f"{project.source.name} has no step {name}: is it the file that was built?"
    teller = Teller(project, step, events)
    lines = teller.told(reason)
    return "\n".join(lines + teller.taken())


class Teller:
    """Tells why a step failed, with the places in its body."""

    def __init__(self, project, step, events):
        self.project = project
        self.step = step
        self.events = events
        self.reading = step.reading()

    def told(self, reason):
        """The lines about a reason, by its form."""
        name = self.step.full_name
        if reason.startswith('"'):
            return self.said(reason)
        found = AT.match(reason)
        if found:
            return self.at(found.group(1), int(found.group(2)))
        found = ITEM.match(reason)
        if found:
            return self.item(*found.groups())
        found = PROXY.match(reason)
        if found:
            return self.proxy(int(found.group(1)), int(found.group(2)))
        found = TAKEN.match(reason)
        if found:
            entry = self.step.consumed(found.group(1))
            message = f"what {name} takes up to {found.group(1)} is too much; a step may take 16,384 cells and 262,144 bytes of text"
            return [self.project.source.show(entry.start, entry.end, message)]
        return [self.project.source.show(self.step.start, self.step.end, f"{name}: {LIMITS.get(reason, reason)}")]

    def show(self, token, message):
        """The place of a token of the body, with a message."""
        places = self.step.body.places
        return self.project.source.show(places[token.start], places[max(token.start, token.end - 1)] + 1, message)

    def said(self, reason):
        """The `fail` that said the text: the one that has it as its literal, or each that could."""
        tokens = self.reading.tokens
        fails = [(it, tokens[i + 1]) for i, it in enumerate(tokens) if it.kind == "keyword" and it.text == "fail"]
        exact = [it for it in fails if it[1].kind == "text" and reason[1:-1] == it[1].text[1:-1]]
        message = f"{self.step.full_name} failed by its own word, {reason}"
        if len(exact) == 1:
            return [self.show(exact[0][0], message)]
        return [self.show(it, message if i == 0 else "or here") for i, (it, _) in enumerate(exact or fails)]

    def at(self, what, number):
        """A reason that names a token."""
        token = self.reading.tokens[number]
        notes = []
        if what == "value too deep":
            message = "this value is more than 64 deep"
        elif what == "proxy used":
            message = f"{token.shown()} looks into what a recorded call returns, which isn't there before the start"
            notes = ["  such a value may be bound, produced, put into a list or a bean, and handed to a call"]
        elif token.text == ".":
            field = self.reading.tokens[number + 1]
            message = f"the value before `.{field.text}` is no bean with a field {field.text}"
            having = [it.name for it in self.project.beans if field.text in it.fields]
            notes = [f"  beans with this field: {both(having)}"] if having else [f"  no bean has a field {field.text}"]
        else:
            message = KINDS.get(token.text, "a value has another kind than the operation needs")
        return [self.show(token, message)] + notes + self.optional_hint()

    def optional_hint(self):
        """A note for items of which nothing was taken."""
        empty = [it.item for it in self.events if it.word == "take" and it.step == self.step.full_name and it.text == "()"]
        got = [it for it in empty if it in self.reading.names("item", "get")]
        return [f"  nothing was taken of {both(got)}: `get` of it is null"] if got else []

    def item(self, name, what):
        """A production that its item doesn't allow."""
        places = [self.reading.tokens[it.token] for it in self.reading.uses if it.role == "item" and it.owner == "produce" and it.name == name]
        if what == "twice":
            lines = [self.show(it, f"{name} is a simple item, and is produced here" if i == 0 else "and here") for i, it in enumerate(places)]
            return lines + (["  it was produced in more than one turn of a `for`"] if len(places) == 1 else []) + ['  an item with several values has `kind = "multi"`']
        key = self.project.item(name).key
        lines = [self.show(it, f"a value of the ordered item {name} has the field {key} with a whole number" if i == 0 else "or here") for i, it in enumerate(places)]
        having = [it.name for it in self.project.beans if key in it.fields]
        return lines + [f"  beans with this field: {both(having)}" if having else f"  no bean has a field {key}"]

    def proxy(self, number, call):
        """A runtime value in a static step."""
        other = next((it for it in self.project.steps if it.number == number), None)
        where = f", number {call} of those that {other.full_name} recorded" if other else ""
        calls = [it for it in self.reading.tokens if it.kind == "keyword" and it.text == "call"]
        message = f"{self.step.full_name} is static: its calls are played before any runtime call, and can't use what one returns"
        notes = [f"  the value is that of a runtime call{where}", '  write `record = "runtime"` in this step']
        return [self.show(it, message if i == 0 else "or here") for i, it in enumerate(calls)] + notes

    def taken(self):
        """What the step took before it failed."""
        takes = [it for it in self.events if it.word == "take" and it.step == self.step.full_name]
        return [f"  it took {it.item} {it.text if len(it.text) <= 90 else it.text[:87] + '...'}" for it in takes]

