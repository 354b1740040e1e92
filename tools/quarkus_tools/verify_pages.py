"""What the pages show: every file and every command with its output, and the tables of bodies and faults.

A block fenced as `toml` is a file: app.toml, or the name behind the word. A block fenced as `console`
has commands behind `$`, each with what it prints; a line `...` stands for any lines."""

import json
import os
import re
import subprocess

from . import history
from .body import KEYWORDS, SIGN
from .program import PROGRAM, TOP, run

FENCE = re.compile(r"^```(\w+)(?: (\S+))?\n(.*?)^```$", re.MULTILINE | re.DOTALL)
MARK = "--the-next-command--"
ROW = re.compile(r"(?<!\\)\|")
SIGNS = r"; , . : ( ) [ ] { } = == < + ! &&"


def pages():
    """The pages with something to run, in order."""
    docs = sorted(it for it in os.listdir(os.path.join(TOP, "docs")) if it.endswith(".md"))
    found = ["README.md", "CONTRIBUTING.md", "editors/README.md", "examples/README.md", *(f"docs/{it}" for it in docs)]
    return [it for it in found if os.path.exists(os.path.join(TOP, it))]


def read(page):
    with open(os.path.join(TOP, page), encoding="utf-8") as file:
        return file.read()


def prepared(room):
    """A folder in which the commands of a page work as in the repository's."""
    os.makedirs(os.path.join(room, "bin"))
    for name in ("tools", "examples", "docs"):
        os.symlink(os.path.join(TOP, name), os.path.join(room, name))
    for link in ("quarkus", "bin/quarkus"):
        os.symlink(PROGRAM, os.path.join(room, link))
    return room


def tried(page, room):
    """The page with what its commands print now."""

    def block(found):
        kind, name, text = found.groups()
        if kind == "toml":
            with open(os.path.join(room, name or "app.toml"), "w", encoding="utf-8") as file:
                file.write(text)
        elif kind == "json":
            json.loads(text)
        elif kind == "console":
            return f"```console\n{console(text, room)}```"
        return found.group()

    return FENCE.sub(block, read(page))


def console(text, room):
    """A block of commands with what they print now, or as it was where it fits that."""
    shown = re.split(r"^\$ (.*)\n", text, flags=re.MULTILINE)
    commands, outputs = shown[1::2], shown[2::2]
    script = "".join(f"{it}\nkept=$?; echo {MARK}; (exit $kept)\n" for it in commands)
    environment = {**os.environ, "PATH": os.path.join(room, "bin") + os.pathsep + os.environ["PATH"], "QUARKUS": os.path.join(room, "quarkus")}
    ended = subprocess.run(["sh", "-c", script], stdout=subprocess.PIPE, stderr=subprocess.STDOUT, text=True, cwd=room, env=environment)
    now = ended.stdout.split(f"{MARK}\n")
    return "".join(f"$ {command}\n{wanted if fits(wanted, found) else found}" for command, wanted, found in zip(commands, outputs, now))


def fits(wanted, found):
    """Whether an output is the wanted one, in which `...` stands for any lines."""
    parts = [re.escape(it) for it in re.split(r"^\.\.\.\n", wanted, flags=re.MULTILINE)]
    return re.fullmatch("(?:.*\n)*".join(parts), found) is not None


def rows(page, heading):
    """The cells of the table that stands behind a line of a page."""
    lines = read(page).split(heading, 1)[1].split("\n")
    start = next(i for i, it in enumerate(lines) if it.startswith("|"))
    table = []
    for line in lines[start + 2 :]:
        if not line.startswith("|"):
            break
        table.append([it.strip().replace("\\|", "|") for it in ROW.split(line)[1:-1]])
    return table


def answer(room, text):
    """What `plan` says of a file, without the words before the fault."""
    path = os.path.join(room, "row.toml")
    with open(path, "w", encoding="utf-8") as file:
        file.write(text)
    return run(["plan", path])[1].strip().removeprefix("project refused: ")


def body_rows(room):
    """Rows of LANGUAGE.md's table of refused bodies whose message isn't what the program says."""
    wrong = []
    for cell, message in rows("docs/LANGUAGE.md", "Some examples, in a step that consumes"):
        body = re.search(r"`(.+?)`", cell).group(1)
        more = ', {name = "V", kind = "simple"}' if "is declared" in cell else ""
        found = answer(
            room,
            'format = 1\napp = "a"\n[[extensions]]\nname = "e"\n'
            f'items = [{{name = "T", kind = "simple"}}, {{name = "U", kind = "simple"}}{more}]\n'
            'beans = [{name = "B", fields = ["x", "y"]}]\nrecorders = [{name = "R", methods = [{name = "m", params = ["p"]}]}]\n'
            f"steps = [{{name = \"s\", consumes = [\"U\"], produces = [\"T\"], record = \"static\", body = '{body}'}}]\n",
        )
        if found != "extensions[0].steps[0].body: " + message.strip("`"):
            wrong.append(f"{body}: {found}")
    return wrong


# What a row of PROJECT_FILE.md's table of wrong lines means where it says it in words.
PROSE = {
    "2,049 entries of `finals`": "finals = [" + '"T", ' * 2049 + "]",
    "the name of an earlier one": 'name = "e"}, {name = "e"',
    "two items `T` in the first extension": 'items = [{name = "T", kind = "empty"}, {name = "T", kind = "empty"}]',
    "17 fields": "fields = [" + ", ".join(f'"f{i}"' for i in range(17)) + "]",
}
HEAD = 'format = 1\napp = "a"\n'
# What stands around a wrong line of each table.
AROUND = {
    "an extension": ("extensions = [{", "}]"),
    "an item": ('extensions = [{name = "e", items = [{name = "T", ', "}]}]"),
    "a bean": ('extensions = [{name = "e", beans = [{name = "B", ', "}]}]"),
    "a recorder": ('extensions = [{name = "e", recorders = [{name = "R", ', "}]}]"),
    "a method": ('extensions = [{name = "e", recorders = [{name = "R", methods = [{name = "m", ', "}]}]}]"),
    "a step": ('extensions = [{name = "e", items = [{name = "T", kind = "simple"}, {name = "U", kind = "simple"}], steps = [{name = "s", ', "}]}]"),
}


def fault_file(place, line):
    """The file that a row of PROJECT_FILE.md's table of wrong lines means."""
    code = PROSE.get(line) or re.search(r"`(.+?)`(?: |$)", line).group(1)
    if place == "the file":
        if " alone" in line:
            return code + "\n"
        key = code.split(" ")[0]
        return re.sub(rf"^{key} = .*\n", "", HEAD, flags=re.MULTILINE) + code + "\n"
    if place == "an item" and code.startswith("items"):
        return HEAD + f'extensions = [{{name = "e", {code}}}]\n'
    if place == "a step" and code.startswith("body"):
        code += ', produces = ["T"]'
    before, behind = AROUND[place]
    return HEAD + before + code + behind + "\n"


def fault_rows(room):
    """Rows of PROJECT_FILE.md's table of wrong lines whose fault isn't what the program says."""
    wrong = []
    for place, line, printed in rows("docs/PROJECT_FILE.md", "Each table, with a wrong line"):
        found = answer(room, fault_file(place, line))
        if found != printed.strip("`"):
            wrong.append(f"{place}, {line}: {found}")
    return wrong


def word_rows():
    """Tables of keywords and signs that aren't those of the language."""
    table = {name: cell for name, cell in (it for it in rows("docs/LANGUAGE.md", "## Tokens"))}
    wrong = [] if re.findall(r"`(\w+)`", table["keyword"]) == KEYWORDS else ["the keywords of docs/LANGUAGE.md"]
    signs = re.findall(r"`([^`]+)`", table["sign"])
    wrong += [] if " ".join(signs) == SIGNS and all(SIGN.fullmatch(it) for it in signs) else ["the signs of docs/LANGUAGE.md"]
    listed = re.search(r"none of the words `([a-z ]+)`", read("docs/PROJECT_FILE.md")).group(1).split()
    return wrong + ([] if listed == KEYWORDS else ["the words of docs/PROJECT_FILE.md"])


# A step with the names that the rows below use.
WITHOUT = """
finals = ["T"]
[[extensions]]
name = "e"
items = [{name = "T", kind = "multi"}, {name = "N", kind = "multi"}]
beans = [{name = "Port", fields = ["number", "shown"]}]
[[extensions.steps]]
name = "s"
consumes = ["N"]
produces = ["T"]
"""


def without_rows(room):
    """Rows of LANGUAGE.md's table of what to write in place of what isn't there, that the program refuses."""
    wrong = []
    for cells in rows("docs/LANGUAGE.md", "## What the language leaves out"):
        for body in re.findall(r"`((?:produce|if|for|let) [^`]*)`", cells[1]):
            found = answer(room, HEAD + WITHOUT + f"body = 'let a = 1; let b = 2; let p = true; let q = true; {body}'\n")
            if "planned a: " not in found:
                wrong.append(f"{body}: {found}")
    return wrong


def value_rows():
    """Examples of printed values in TEXTS.md that are no values."""
    wrong = []
    for _, _, example in rows("docs/TEXTS.md", "## Values"):
        try:
            if example:
                history.value(example.strip("`"))
        except history.HistoryFault as fault:
            wrong.append(str(fault))
    return wrong


def unlisted_examples():
    """Examples that the index doesn't name, and names that are no example."""
    here = os.path.join(TOP, "examples")
    folders = {it for it in os.listdir(here) if os.path.isdir(os.path.join(here, it))}
    named = set(re.findall(r"^\| \[(\w+)\]\(\1\)", read("examples/README.md"), re.MULTILINE))
    return sorted(folders ^ named)


def broken_links():
    """Links of pages that lead to no file."""
    wrong = []
    for page in pages():
        for target in re.findall(r"\]\(([^)#:]+)(?:#[^)]*)?\)", read(page)):
            if not os.path.exists(os.path.join(TOP, os.path.dirname(page), target)):
                wrong.append(f"{page}: {target}")
    return wrong
