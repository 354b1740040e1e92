"""What is wrong where, for a line that begins with `chain refused: `."""

import re

from .chain import Chain
from .words import both

TWO = re.compile(r"item (\w+) has the producers ([\w.]+) and ([\w.]+)$")
MISSING = re.compile(r"item (\w+), (?:wanted by ([\w.]+)|a final item), has no producer$")
CYCLE = re.compile(r"cycle (.+)$")


def explain(project, line):
    """The explanation of a chain's fault."""
    teller = Teller(project)
    for pattern, tell in ((TWO, teller.two_producers), (MISSING, teller.missing), (CYCLE, teller.cycle)):
        found = pattern.match(line)
        if found:
            return tell(*found.groups())
    return f"no fault of a chain is written so: {line}"


class Teller:
    """Tells of a project's chain, with the places in its file."""

    def __init__(self, project):
        self.project = project
        self.source = project.source
        self.chain = Chain(project)

    def two_producers(self, item, first, second):
        """A simple item with two productions that count."""
        steps = [self.project.step(first), self.project.step(second)]
        lines = [f"{item} is a simple item: one step's production of it counts, and here two do"]
        lines += [self.production(it, item, f"{it.full_name} produces {item}") for it in steps]
        lines += self.others(item, steps)
        lines.append('  make one production `overridable`, give the steps conditions of which one holds (`only_if`, `only_if_not`), or make the item `kind = "multi"`')
        return "\n".join(lines)

    def missing(self, item, consumer):
        """An item that is wanted, by a step or by the application, and that no needed step produces."""
        declared = self.project.item(item)
        if consumer is None:
            entry = next(it for it in self.project.finals if it.name == item)
            lines = [self.source.show(entry.start, entry.end, f"the application wants {item}, and no needed step produces it")]
        else:
            step = self.project.step(consumer)
            entry = step.consumed(item)
            lines = [self.source.show(entry.start, entry.end, f"{consumer} consumes {item}, and no needed step produces it")]
            lines.append(f"  {self.why_needed(step)}")
        lines += self.others(item, [])
        if not self.chain.producers.get(item):
            lines.append(f'  no step has {item} in its `produces`; a step that makes it says `produces = ["{item}"]`')
        elif not self.chain.effective[item]:
            lines.append(f"  no step that produces {item} is active")
        else:
            lines.append("  a step is needed where something needed consumes one of its products, and that production isn't `weak`")
        if consumer is not None:
            lines.append(f'  where {consumer} can do without it, write `consumes = ["{item} optional"]`')
        elif declared:
            lines.append(f"  it is declared in {self.source.place(declared.start)}")
        return "\n".join(lines)

    def why_needed(self, step):
        item, consumer = self.chain.reason[step.number]
        wanted = "a final item" if consumer is None else f"which {consumer.full_name} consumes"
        return f"{step.full_name} is needed: it produces {item}, {wanted}"

    def others(self, item, told):
        """A line for each other producer of the item, with what keeps it from counting."""
        steps = [it for it in self.chain.producers.get(item, ()) if it not in told]
        return [f"  {self.source.place(it.produced(item).start)}: {it.full_name} produces {item}, and {self.chain.standing(it, item)}" for it in steps]

    def production(self, step, item, message):
        entry = step.produced(item)
        return self.source.show(entry.start, entry.end, message)

    def cycle(self, names):
        """Steps that wait for one another, each for the one before."""
        steps = [self.project.step(it) for it in names.split(", ")]
        if len(steps) == 1:
            lines = [f"{steps[0].full_name} waits for itself"]
        else:
            lines = [f"the steps {both(it.full_name for it in steps)} wait for each other"]
        for step, after in zip(steps, steps[1:] + steps[:1]):
            items = [it.name for it in step.produces if after.consumed(it.name) and step in self.chain.effective[it.name]]
            entry = after.consumed(items[0])
            lines.append(self.source.show(entry.start, entry.end, f"{after.full_name} consumes {both(items)}, which {step.full_name} produces"))
        lines.append("  `optional` doesn't change the order: take one of these consumptions away, or let another step produce the item")
        return "\n".join(lines)
