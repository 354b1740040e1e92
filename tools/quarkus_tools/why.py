"""tools/why: why a step is needed or not, and what becomes of an item.

    tools/why FILE STEP     a step, as EXT.NAME or by its name alone
    tools/why FILE ITEM"""

from .chain import Chain
from .project import Unreadable, load
from .words import both, did_you_mean

USAGE = "usage: tools/why FILE STEP|ITEM"


def main(words):
    """Says why; 0, or 1 where the file can't be read or has no such name."""
    if len(words) != 2:
        print(USAGE)
        return 1
    file, name = words
    try:
        project = load(file)
    except Unreadable as fault:
        print(fault)
        return 1
    found = answers(project, name)
    if found:
        print("\n\n".join(found))
        return 0
    names = [it.full_name for it in project.steps] + [it.name for it in project.steps] + [it.name for it in project.items]
    print(f"{file} has no step and no item {name}", did_you_mean(name, names), sep="; " if did_you_mean(name, names) else "")
    return 1


def answers(project, name):
    """What there is to say of every step and item of that name."""
    chain = Chain(project)
    steps = [it for it in project.steps if name in (it.full_name, it.name)]
    items = [it for it in project.items if it.name == name]
    return [of_step(chain, it) for it in steps] + [of_item(chain, it) for it in items]


def of_step(chain, step):
    """Why a step is needed or not, what it waits for, and what becomes of its products."""
    place = chain.project.source.place(step.start)
    if chain.is_needed(step):
        lines = [f"{place}: step {step.number} {step.full_name} is needed"]
        lines += [f"  {it.full_name} produces {item}, {wanted(consumer)}" for it, item, consumer in chain.path(step)]
    elif not chain.is_active(step):
        lines = [f"{place}: step {step.number} {step.full_name} isn't active, and never runs"]
        lines += [f"  {chain.condition(*it)}" for it in chain.against(step)]
    else:
        lines = [f"{place}: step {step.number} {step.full_name} isn't needed"]
    lines += [f"  {product(chain, step, it)}" for it in step.produces]
    if not step.produces:
        lines.append("  it produces nothing, so nothing can want it")
    lines += [f"  {consumption(chain, it)}" for it in step.consumes]
    return "\n".join(lines)


def wanted(consumer):
    return "a final item" if consumer is None else f"which {consumer.full_name} consumes"


def product(chain, step, entry):
    """What becomes of one production."""
    shown = f"its production of {' '.join([entry.name, *entry.marks])}"
    if not chain.is_active(step):
        return f"{shown} doesn't count, as it isn't active"
    if step not in chain.effective[entry.name]:
        return f"{shown} is overridden by {both(it.full_name for it in chain.effective[entry.name])}"
    takers = takers_of(chain, entry.name)
    if not takers:
        others = [it.full_name for it in chain.consumers.get(entry.name, ())]
        words = ("consumes", "is") if len(others) == 1 else ("consume", "are")
        told = f": {both(others)} {words[0]} it, and {words[1]} not needed"
        return f"{shown} is wanted by nobody{told if others else ''}"
    if not chain.is_needed(step):
        return f"{shown} is weak: that it is wanted by {both(takers)} makes no step needed"
    return f"{shown} goes to {both(takers)}"


def takers_of(chain, item):
    """Who wants an item: needed steps, and the application."""
    final = ["the application"] if any(it.name == item for it in chain.project.finals) else []
    return [it.full_name for it in chain.needed_consumers(item)] + final


def consumption(chain, entry):
    """Where one consumption comes from."""
    producers = [it.full_name for it in chain.needed_producers(entry.name)]
    shown = " ".join([entry.name, *entry.marks])
    if producers:
        return f"it consumes {shown} from {both(producers)}"
    return f"it consumes {shown}, which no needed step produces"


def adverbs(entry):
    """The marks of an entry, as they are said of a verb."""
    return "".join({"optional": " optionally", "weak": " weakly", "overridable": " overridably"}.get(it, "") for it in entry.marks)


def of_item(chain, item):
    """Who produces and who consumes an item."""
    final = any(it.name == item.name for it in chain.project.finals)
    key = f" by {item.key}" if item.kind == "ordered" else ""
    lines = [f"{chain.project.source.place(item.start)}: {item.name} is {'an' if item.kind[:1] in 'eo' else 'a'} {item.kind} item{key} of {item.extension}"]
    lines.append("  it is a final item" if final else "  it is no final item")
    for step in chain.producers[item.name]:
        marks = adverbs(step.produced(item.name))
        lines.append(f"  {step.full_name} produces it{marks}, and {chain.standing(step, item.name)}")
    if not chain.producers[item.name]:
        lines.append("  no step produces it")
    for step in chain.consumers[item.name]:
        marks = adverbs(step.consumed(item.name))
        state = "is needed" if chain.is_needed(step) else "isn't needed" if chain.is_active(step) else "isn't active"
        lines.append(f"  {step.full_name} consumes it{marks}, and {state}")
    if not chain.consumers[item.name]:
        lines.append("  no step consumes it")
    return "\n".join(lines)
