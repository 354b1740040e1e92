"""Whether what the tools know of bodies and of the chain is what the program says of the same files."""

import re

from .chain import Chain
from .program import run
from .project import load

STUCK = re.compile(r"project refused: (.+\.body): token (\d+): (wrong token|too deep|syntax)$")
ROW = re.compile(r"^step (\d+) \S+(?: after ([\d ]+))?$", re.MULTILINE)


def differences(path):
    """What the tools say otherwise than the program of one file, which may be refused."""
    status, text = run(["plan", path])
    if status == 0:
        return [] if planned(text) == retold(load(path)) else ["the plan"]
    found = STUCK.match(text.strip())
    if not found:
        return []
    project = load(path)
    body = project.at(found.group(1))[-1]
    owner = next(it for it in project.steps + project.methods() if it.body is body)
    reading = owner.reading()
    same = (reading.stuck, reading.word) == (int(found.group(2)), found.group(3))
    return [] if same else [f"the body of {owner.name}"]


def planned(text):
    """The needed steps of a plan, each with the steps that it waits for."""
    return {int(number): set(map(int, (after or "").split())) for number, after in ROW.findall(text)}


def retold(project):
    """The same by the tools."""
    chain = Chain(project)
    found = {number: set() for number in chain.reason}
    for producer, _, consumer in chain.edges():
        found[consumer.number].add(producer.number)
    return found
