"""tools/explain: says in words, with the place in the file, why the program refused or failed.

    quarkus plan app.toml 2>&1 | tools/explain app.toml
    tools/explain app.toml -- build OUT

The first form reads what the program printed; the second runs the program itself, with the file behind
the command's word, and ends with the program's status."""

import errno
import os
import shutil
import sys

from . import explain_chain, explain_failure, explain_project, history
from .program import PROGRAM, UNPROVED, run
from .project import Unreadable, load
from .source import Source
from .words import did_you_mean

USAGE = """usage: quarkus plan FILE 2>&1 | tools/explain FILE
       tools/explain FILE -- plan
       tools/explain FILE -- build OUT [--workers N]
       tools/explain FILE -- dump"""
FORMS = ["plan FILE", "build FILE OUT [--workers N]", "dump FILE"]
CLASS_FAULTS = {
    "too": "a class file has at most 2,000,000 bytes",
    "magic": "a class file begins with the bytes ca fe ba be; this is none",
    "version": "the version isn't read: the minor one has to be 0, the major one 49 to 65",
    "short": "the file ends inside the number or the run of bytes that begins at this offset",
    "pool": "the constant with this number has a tag that isn't read, a text that is none, or refers to a constant of another kind",
    "shape": "the bytes at this offset refer to no constant of the right kind, or are no whole code",
    "trailing": "the class ends before this offset, and bytes follow",
}


def main(words, stdin=None, stdout=None):
    """Explains; gives the status to end with."""
    stdout = stdout or sys.stdout
    if not words or words[1:2] not in ([], ["--"]) or words[1:] == ["--"]:
        print(USAGE, file=stdout)
        return 1
    file, command = words[0], words[2:]
    if command:
        status, text = run([command[0], file, *command[1:]])
    else:
        status, text = None, (stdin or sys.stdin).read()
    print(explained(file, command, status, text), file=stdout)
    return status or 0


def explained(file, command, status, text):
    """The last line that the program printed, and what it means."""
    lines = text.rstrip("\n").split("\n") if text.strip() else []
    last = lines[-1] if lines else ""
    for start, tell in (("project refused: ", refused), ("chain refused: ", chain), ("step failed: ", failure), ("classes refused: ", classes)):
        if last.startswith(start):
            return f"{last}\n\n{tell(file, lines, last.removeprefix(start))}"
    if last.startswith(("planned ", "built ")) or status == 0:
        return f"{last}\n\nNothing is wrong."
    if last.startswith("usage: "):
        return f"{last}\n\n{usage(command)}"
    if status in UNPROVED or last.startswith("quarkus: "):
        return (f"{last}\n\n" if last else "") + "The program isn't there yet: it is proved and built by the toolchain's command `rt`, which has to be on the PATH."
    return silent(file, command, status)


def refused(file, lines, fault):
    with open(file, "rb") as opened:
        content = opened.read()
    text = content.decode("utf-8", "replace").replace("\r\n", "\n")
    return explain_project.explain(Source(file, text), content, fault)


def chain(file, lines, fault):
    try:
        return explain_chain.explain(load(file), fault)
    except Unreadable:
        return f"{file} can't be read as the project that was planned"


def failure(file, lines, fault):
    try:
        events = history.read("\n".join(lines[:-1]))
    except history.HistoryFault:
        events = []
    try:
        return explain_failure.explain(load(file), events, fault)
    except Unreadable:
        return f"{file} can't be read as the project that was built"


def classes(file, lines, fault):
    word = fault.rsplit(": ", 1)[-1].split(" ")
    lines = [f"{file}: {CLASS_FAULTS.get(word[0], 'the class is refused')}"]
    if word[0] in ("short", "shape", "trailing") and os.path.exists(file):
        with open(file, "rb") as opened:
            opened.seek(int(word[2]))
            lines.append(f"  at offset {word[2]} of {os.path.getsize(file)} stands: {opened.read(16).hex(' ') or 'nothing'}")
    return "\n".join(lines)


def usage(command):
    """Why words have no form."""
    forms = "".join(f"\n    quarkus {it}" for it in FORMS)
    later = ("start", "run", "gen", "check", "verify", "compile")
    if command and command[0] in later:
        return f"`{command[0]}` isn't built yet. The forms today are{forms}"
    numbers = [it for it in command if it.isdecimal()]
    if "--workers" in command and (not numbers or not 1 <= int(numbers[-1]) <= 64):
        return f"`--workers` takes a number from 1 to 64. The forms are{forms}"
    return f"The words have none of the forms{forms}"


def silent(file, command, status):
    """What happened where nothing was printed."""
    why = unreadable(file)
    if why:
        return f"{file}: {why}"
    if status == 8:
        return "want of memory: the program asked for more than the system gave it"
    if status is None:
        return "Nothing was printed, and the file can be read. What was it? `tools/explain FILE -- build OUT` runs the program and sees its status."
    outs = [it for it in command[1:] if not it.startswith("-") and not it.isdecimal()]
    if status == 7 and outs:
        return f"{os.path.join(outs[0], 'history.txt')}: {unwritable(outs[0])}"
    if status == 7:
        return "standard output didn't take the text"
    return f"the program {PROGRAM} ended with {status} and said nothing"


def unreadable(file):
    """Why a file can't be read, or an empty text."""
    try:
        with open(file, "rb") as opened:
            opened.read(1)
    except FileNotFoundError:
        folder = os.path.dirname(file) or "."
        if not os.path.isdir(folder):
            return f"there is no folder {folder}"
        return "no such file" + near_file(file, folder)
    except IsADirectoryError:
        inside = os.path.join(file, "app.toml")
        return "this is a folder" + (f"; did you mean {inside}?" if os.path.exists(inside) else "")
    except PermissionError:
        return "there is no right to read it"
    except OSError as fault:
        return os.strerror(fault.errno) if fault.errno else str(fault)
    return ""


def near_file(file, folder):
    question = did_you_mean(os.path.basename(file), [it for it in os.listdir(folder) if it.endswith((".toml", ".class"))])
    return f"; {question}" if question else ""


def unwritable(out):
    """Why nothing could be written into a folder."""
    target = os.path.join(out, "history.txt")
    above = out
    while above and not os.path.lexists(above):
        above = os.path.dirname(above)
    above = above or "."
    if not os.path.isdir(above):
        return f"{above} is a file, and no folder"
    if os.path.isdir(target):
        return "a folder stands in its place"
    if not os.access(above, os.W_OK) or os.path.exists(target) and not os.access(target, os.W_OK):
        return f"there is no right to write in {above}"
    if shutil.disk_usage(above).free < 1 << 20:
        return "the disk is full" if shutil.disk_usage(above).free == 0 else "the disk is nearly full"
    return os.strerror(errno.EIO)
