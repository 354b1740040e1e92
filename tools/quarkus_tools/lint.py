"""tools/lint: what a project file declares and nobody uses. None of it is an error.

    tools/lint FILE..

Each line names a place and what stands there without need; the status is 1 where there is one."""

from .chain import Chain
from .project import Unreadable, load
from .words import both

USAGE = "usage: tools/lint FILE.."


def main(words):
    """Looks at each file; 0 where there is nothing to say."""
    if not words:
        print(USAGE)
        return 1
    notes = 0
    for file in words:
        try:
            project = load(file)
        except Unreadable as fault:
            print(fault)
            return 1
        found = findings(project)
        for start, message in found:
            print(f"{project.source.place(start)}: note: {message}")
        notes += len(found)
    return 1 if notes else 0


def findings(project):
    """(place, message) for everything without need, in the order of the file."""
    chain = Chain(project)
    readings = [(step, step.reading()) for step in project.steps]
    found = config_keys(project) + items(project, chain) + unneeded(project, chain)
    for step, reading in readings:
        if reading.stuck is not None:
            found.append((step.start, f"the body of {step.full_name} is no sentence of the language; tools/explain says why"))
            continue
        found += consumptions(project, step, reading) + productions(project, step, reading)
    bodies = [it for _, it in readings] + [it.reading() for it in project.methods()]
    return sorted(found + beans(project, bodies) + recorders(project, bodies))


def config_keys(project):
    used = {it.name for step in project.steps for it in step.only_if + step.only_if_not}
    entries = project.tree.get("config").value if project.config else {}
    return [(entries[key].start, f"no step has a condition on {key}") for key in project.config if key not in used]


def items(project, chain):
    finals = {it.name for it in project.finals}
    found = []
    for item in project.items:
        produced, consumed = chain.producers[item.name], chain.consumers[item.name] or item.name in finals
        if not produced and not consumed:
            found.append((item.start, f"nobody produces or consumes {item.name}"))
        elif not consumed:
            found.append((item.start, f"nobody consumes {item.name}, and it is no final item"))
        elif not produced:
            found.append((item.start, f"nobody produces {item.name}"))
    return found


def unneeded(project, chain):
    found = []
    for step in project.steps:
        never = {it.name for it in step.only_if} & {it.name for it in step.only_if_not}
        if never:
            found.append((step.start, f"{step.full_name} is never active: {min(never)} stands in both of its conditions"))
        elif chain.is_active(step) and not chain.is_needed(step):
            found.append((step.start, f"{step.full_name} isn't needed{overridden(chain, step)}"))
    return found


def overridden(chain, step):
    """Who takes the place of a step in all that it produces."""
    by = [it for entry in step.produces for it in chain.effective[entry.name]]
    whole = by and step not in by
    return f": overridden by {both(dict.fromkeys(it.full_name for it in by))}" if whole else ""


def consumptions(project, step, reading):
    """Items that a step consumes and its body doesn't look at; an empty item has nothing to look at."""
    used = set(reading.names("item", "get") + reading.names("item", "all"))
    waits = [it for it in step.consumes if it.name not in used and kind(project, it.name) != "empty"]
    return [(it.start, f"{step.full_name} consumes {it.name}, and its body has no `{word(project, it.name)} {it.name}`") for it in waits]


def productions(project, step, reading):
    used = set(reading.names("item", "produce"))
    silent = [it for it in step.produces if it.name not in used and kind(project, it.name) != "empty"]
    return [(it.start, f"{step.full_name} produces {it.name}, and its body has no `produce {it.name}`") for it in silent]


def kind(project, name):
    item = project.item(name)
    return item.kind if item else ""


def word(project, name):
    return "get" if kind(project, name) == "simple" else "all"


def beans(project, bodies):
    used = {name for it in bodies for name in it.names("bean")}
    return [(it.start, f"no body makes a {it.name}") for it in project.beans if it.name not in used]


def recorders(project, bodies):
    called = {(it.owner, it.name) for body in bodies for it in body.uses if it.role == "method"}
    found = []
    for recorder in project.recorders:
        if all(name != recorder.name for name, _ in called):
            found.append((recorder.start, f"no step calls the recorder {recorder.name}"))
            continue
        found += [(it.start, f"no step calls {recorder.name}.{it.name}") for it in recorder.methods if (recorder.name, it.name) not in called]
    return found
