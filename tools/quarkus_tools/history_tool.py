"""tools/history: the history of a build, for people and for other tools.

    tools/history OUT                  a table by step
    tools/history OUT --json           one line of JSON for each event
    tools/history OUT OTHER            what differs from another history, step by step
    tools/history OUT --html FILE      one page with the graph of the project FILE

OUT is the folder of a build, or a history's file."""

import json
import re

from . import history, history_page
from .graph import Picture
from .project import Unreadable, load
from .words import count

USAGE = "usage: tools/history OUT [--json | --html FILE | OTHER]"
NUMBERS = re.compile(r'"(?:[^"\\]|\\.)*"|#\d+\.(\d+)|@\d+\.(\d+\.(?:static|runtime))')


def main(words):
    """Prints what the words ask for; 0, or 1 where files can't be read or histories differ."""
    try:
        if len(words) == 1:
            print(table(history.load(words[0])), end="")
        elif len(words) == 2 and words[1] == "--json":
            print(json_lines(history.load(words[0])), end="")
        elif len(words) == 3 and words[1] == "--html":
            events = history.load(words[0])
            print(history_page.page(Picture.of(load(words[2]), events), events), end="")
        elif len(words) == 2 and not words[1].startswith("-"):
            found = difference(history.load(words[0]), history.load(words[1]))
            print(found, end="")
            return 0 if not differs(found) else 1
        else:
            print(USAGE)
            return 1
    except (Unreadable, history.HistoryFault) as fault:
        print(fault)
        return 1
    return 0


def by_step(events):
    """The events of each step, in the order in which the steps started."""
    found = {}
    for it in events:
        found.setdefault(it.step, []).append(it)
    return found


def table(events):
    """A line for each step: what it took, put and recorded, and how it ended."""
    rows = [("start", "step", "takes", "puts", "calls", "end")]
    for number, (step, own) in enumerate(by_step(events).items(), 1):
        last = own[-1]
        ended = {"end": "ended", "fail": f"failed: {last.text}"}.get(last.word, "not ended")
        calls = str(len(last.calls))
        rows.append((str(number), step, *(str(sum(it.word == word for it in own)) for word in ("take", "put")), calls, ended))
    widths = [max(len(row[i]) for row in rows) for i in range(5)]
    lines = ["  ".join([row[0].rjust(widths[0]), row[1].ljust(widths[1]), *(row[i].rjust(widths[i]) for i in (2, 3, 4)), row[5]]) for row in rows]
    return "\n".join(lines) + "\n"


def json_lines(events):
    """An object for each event."""
    return "".join(json.dumps(plain(it), ensure_ascii=False) + "\n" for it in events)


def plain(event):
    """An event as a plain tree."""
    found = {"event": event.word, "step": event.step}
    if event.word == "take":
        found |= {"item": event.item, "values": history.values(event.text[1:-1])}
    elif event.word == "put":
        found |= {"item": event.item, "value": history.value(event.text)}
    elif event.word == "fail":
        found |= {"reason": event.text}
    elif event.word == "end":
        found |= {"calls": [call(it) for it in event.calls]}
    return found


def call(it):
    found = {"recorder": it.recorder, "method": it.method, "arguments": history.values(it.text)}
    return found | ({"kept": it.kept} if it.kept else {})


def without_numbers(line):
    """A line without the numbers of steps in it, which shift when a step is added to the file."""
    return NUMBERS.sub(lambda it: f"#{it[1]}" if it[1] else f"@{it[2]}" if it[2] else it[0], line)


def lines_of(own):
    return [without_numbers(line) for it in own for line in it.lines()]


def difference(events, others):
    """What differs between two histories, step by step; the order of steps isn't looked at."""
    before, now = by_step(events), by_step(others)
    lines, same = [], 0
    for step in list(before) + [it for it in now if it not in before]:
        old, new = lines_of(before.get(step, [])), lines_of(now.get(step, []))
        if old == new:
            same += 1
            continue
        lines.append(f"{step}: " + ("is new" if not old else "is gone" if not new else "differs"))
        if old and new:
            lines += [f"  - {it}" for it in old if it not in new] + [f"  + {it}" for it in new if it not in old]
            if sorted(old) == sorted(new):
                lines.append("  the same lines in another order")
    lines.append(f"{count(same, 'step')} the same, {len(before.keys() | now.keys()) - same} not")
    return "\n".join(lines) + "\n"


def differs(found):
    return not found.endswith(" same, 0 not\n")
