"""tools/verify: runs the tools over the examples and over typical mistakes, and compares what they print
with what is stored. `tools/verify --store` stores it anew, for reading before it is committed."""

import contextlib
import difflib
import io
import os
import shutil
import subprocess
import tempfile

from . import explain, graph, history_tool, lint, verify_editors, verify_pages, verify_rules, verify_toml, verify_wrapper, watch, why
from .program import run
from .project import load

TOP = os.path.dirname(os.path.dirname(os.path.dirname(os.path.realpath(__file__))))
TOOLS = os.path.join(TOP, "tools")
EXAMPLES = os.path.join(TOP, "examples")


class Comparison:
    """Counts what is as stored and what isn't, or stores."""

    def __init__(self, store):
        self.store = store
        self.passed = 0
        self.failed = 0

    def text(self, path, found):
        """Compares a text with a file below tools/ or docs/."""
        path = os.path.join(TOP, path)
        if self.store:
            os.makedirs(os.path.dirname(path), exist_ok=True)
            with open(path, "w", encoding="utf-8") as file:
                file.write(found)
        stored = read(path)
        if stored == found:
            self.passed += 1
            return
        self.failed += 1
        lines = difflib.unified_diff(stored.splitlines(), found.splitlines(), os.path.relpath(path, TOP), "now", lineterm="")
        print("\n".join(list(lines)[:40]))

    def holds(self, what, right):
        """Counts a fact, and names it where it doesn't hold."""
        if right:
            self.passed += 1
        else:
            self.failed += 1
            print(f"tools: {what}")


def read(path):
    if not os.path.exists(path):
        return ""
    with open(path, encoding="utf-8") as file:
        return file.read()


@contextlib.contextmanager
def folder(path):
    """Works in a folder for a while."""
    before = os.getcwd()
    os.chdir(path)
    try:
        yield
    finally:
        os.chdir(before)


def printed(main, words, stdin=""):
    """What a tool prints, and its status as a last line where it isn't 0."""
    out = io.StringIO()
    with contextlib.redirect_stdout(out):
        status = main(words, io.StringIO(stdin), out) if main is explain.main else main(words)
    return out.getvalue() + (f"status {status}\n" if status else "")


def example_words():
    """The folder, the name and the words of each stored run of an example, in order."""
    for name in sorted(os.listdir(EXAMPLES)):
        here = os.path.join(EXAMPLES, name)
        for file in sorted(os.listdir(here)) if os.path.isdir(here) else ():
            if file.endswith(".words"):
                yield name, file[: -len(".words")], read(os.path.join(here, file)).splitlines()


def explained_examples(room):
    """What tools/explain says of each stored run with a file."""
    found = []
    for name, run, words in example_words():
        if len(words) > 1:
            here = os.path.join(room, name)
            shutil.copytree(os.path.join(EXAMPLES, name), here, dirs_exist_ok=True)
            with folder(here):
                found.append(f"== {name} {run}\n" + printed(explain.main, [words[1], "--", words[0], *words[2:]]))
    return "\n".join(found)


def verify_explain(compare, room):
    compare.text("tools/stored/explain_examples.txt", explained_examples(room))
    for path in mistaken():
        command, file = path.split("/")
        out = [os.path.join(room, "out")] if command == "build" else []
        with folder(os.path.join(TOOLS, "mistakes", command)):
            found = printed(explain.main, [file, "--", command, *out])
        compare.text(f"tools/mistakes/{path[:-5]}.txt", found)


def verify_reader(compare, room):
    """The reader of the tools and the program take the same texts for TOML."""
    for text, wanted, by_program, by_reader in verify_toml.answers(room):
        both = f"{by_program} by the program, {by_reader} by the reader"
        compare.holds(f"{text[:40]!r} is TOML: {both}", by_program == by_reader == wanted)


# What the program may print before tools/explain reads it, and for which file.
PIPED = [
    ("guide/app.toml", ""),
    ("guide/absent.toml", ""),
    ("guide", ""),
    ("guide/app.toml", "planned shop: steps 2 of 2\n"),
    ("guide/app.toml", "usage: plan FILE | build FILE OUT [--workers N]\n"),
    ("guide/app.toml", "quarkus: rt, which proves and builds the program, isn't on the PATH\n"),
    ("values/app.toml", "step failed: core.other: kind at 3\n"),
    ("failing_step/app.toml", "start net.read\nput net.read Port 80\nend net.read 0\nstep failed: net.check: too many cells\n"),
    ("failing_step/app.toml", "step failed: net.check: too much taken of Port\n"),
    ("failing_step/app.toml", "step failed: net.check: value too deep at 2\n"),
    ("demo/app.toml", "project refused: file: 1048577 is over the limit\n"),
    ("web/app.toml", "project refused: extensions[1].steps: 2049 is over the limit\n"),
]


def verify_piped(compare, room):
    """What tools/explain says behind a pipe, without having run the program."""
    with folder(EXAMPLES):
        found = [f"== {file}, {text.splitlines()[-1] if text else 'nothing'}\n" + printed(explain.main, [file], text) for file, text in PIPED]
    compare.text("tools/stored/explain_piped.txt", "\n".join(found))


# What tools/why is asked of an example.
ASKED = {
    "conditions/override.toml": ["user", "Conf"],
    "overridable/app.toml": ["dflt", "Conf"],
    "weak/app.toml": ["w", "T"],
    "shop/app.toml": ["core.plain_banner", "hello", "Feature", "datasource.read_pool", "openapi"],
    "web/app.toml": ["web.router", "metrics", "Route", "Metrics", "ruoter"],
}


def project_files():
    """The examples' project files, those of refused projects left out."""
    for name in sorted(os.listdir(EXAMPLES)):
        here = os.path.join(EXAMPLES, name)
        if not os.path.isdir(here) or name == "refused_projects":
            continue
        for file in sorted(os.listdir(here)):
            if file.endswith(".toml"):
                yield f"{name}/{file}"


def verify_why(compare, room):
    with folder(EXAMPLES):
        found = [printed(why.main, [file, name]) for file, names in ASKED.items() for name in names]
    compare.text("tools/stored/why.txt", "\n".join(found))


def verify_lint(compare, room):
    with folder(EXAMPLES):
        compare.text("tools/stored/lint.txt", printed(lint.main, list(project_files())))


def verify_graph(compare, room):
    with folder(EXAMPLES):
        compare.text("tools/stored/web.svg", printed(graph.main, ["web/app.toml", "web/build.files/built"]))
        compare.text("tools/stored/web.dot", printed(graph.main, ["web/app.toml", "--dot"]))
        compare.text("tools/stored/failing_step.svg", printed(graph.main, ["failing_step/app.toml", "failing_step/build.files/built"]))
        compare.text("docs/shop.svg", printed(graph.main, ["shop/app.toml", "shop/build.files/built"]))
        for file in project_files():
            picture = graph.Picture.of(load(file), [])
            compare.holds(f"the graph of {file} has no box for each step", graph.svg(picture).count("<g data-step=") == len(picture.chain.project.steps))


def verify_history(compare, room):
    with folder(EXAMPLES):
        values, web, failing = (f"{it}/build.files/built" for it in ("values", "web", "failing_step"))
        compare.text("tools/stored/history_tables.txt", "\n".join(printed(history_tool.main, [it]) for it in (values, web, failing)))
        compare.text("tools/stored/history_values.json", printed(history_tool.main, [values, "--json"]))
        compare.text("tools/stored/history_page.html", printed(history_tool.main, [failing, "--html", "failing_step/app.toml"]))
        later = os.path.join(room, "later.txt")
        with open(later, "w", encoding="utf-8") as file:
            file.write(read(f"{web}/history.txt").replace("Quarkus profile", "Another profile").replace("#1.", "#9."))
        compare.text("tools/stored/history_difference.txt", printed(history_tool.main, [web, later]))
        compare.holds("a history differs from itself", printed(history_tool.main, [web, web]) == "7 steps the same, 0 not\n")


def verify_schema(compare, room):
    """The schema takes every project, and what it says of refused files is as stored."""
    examples = [(f"examples/{it}", os.path.join(EXAMPLES, it)) for it in project_files()]
    refused = os.path.join(EXAMPLES, "refused_projects")
    examples += [(f"examples/refused_projects/{it}", os.path.join(refused, it)) for it in sorted(os.listdir(refused)) if it.endswith(".toml")]
    mistakes = [(f"mistakes/{it}", os.path.join(TOOLS, "mistakes", it)) for it in mistaken()]
    table, wrong = verify_editors.schema_table(examples + mistakes)
    compare.text("tools/stored/schema.txt", table)
    compare.holds(f"the schema refuses the projects {wrong}", not wrong)


def mistaken():
    """The project files of typical mistakes, by command."""
    for command in ("plan", "build"):
        for file in sorted(os.listdir(os.path.join(TOOLS, "mistakes", command))):
            if file.endswith(".toml"):
                yield f"{command}/{file}"


def verify_retelling(compare, room):
    """Bodies and chains are to the tools what they are to the program."""
    refused = [f"refused_projects/{it}" for it in sorted(os.listdir(os.path.join(EXAMPLES, "refused_projects"))) if it.endswith(".toml")]
    paths = [os.path.join(EXAMPLES, it) for it in [*project_files(), *refused]]
    for path in paths + [os.path.join(TOOLS, "mistakes", it) for it in mistaken()]:
        wrong = verify_rules.differences(path)
        compare.holds(f"of {os.path.relpath(path, TOP)} the tools say otherwise: {wrong}", not wrong)


def verify_vscode(compare, room):
    """The editors' files fit each other, the language and what the tools print."""
    for path in verify_editors.named_files():
        compare.holds(f"editors/vscode has no {path}", os.path.exists(os.path.join(verify_editors.VSCODE, path)))
    compare.holds("the grammar has other keywords than the language", verify_editors.grammar_keywords() == verify_editors.keywords())
    wrong = verify_editors.differently_coloured([(it, os.path.join(EXAMPLES, it)) for it in project_files()])
    compare.holds(f"the grammar finds other tokens in {wrong}", not wrong)
    path = os.path.join(room, "snippets.toml")
    with open(path, "w", encoding="utf-8") as file:
        file.write(verify_editors.snippet_project())
    status, text = run(["plan", path])
    compare.holds(f"the snippets make no project: {text}", status == 0)
    printed_places = read(os.path.join(TOOLS, "stored", "lint.txt")) + read(os.path.join(TOOLS, "mistakes", "plan", "minus.txt"))
    places = verify_editors.matcher().findall(printed_places)
    compare.holds("the problem matcher finds no place", ("minus.toml", "12", "43", "", "`-1` may not stand here") in places and len(places) > 9)


def verify_script(compare, room):
    """The script `quarkus`, its completions and its manual page."""
    compare.text("tools/stored/wrapper.txt", verify_wrapper.wrapper_texts(os.path.join(room, "wrapper")))
    compare.text("tools/stored/completion.txt", verify_wrapper.completions(os.path.join(room, "completion")))
    compare.holds("a shell can't read its completion", not verify_wrapper.wrong_syntax())
    table, manual = verify_wrapper.statuses()
    compare.holds("README.md and docs/quarkus.1 have different statuses", table == manual and len(table) > 9)
    compare.holds("docs/quarkus.1 isn't right", not verify_wrapper.manual_faults())


def verify_scripts(compare, room):
    """Each script of tools/ is there, says what it is for, and refuses words that it has no use for."""
    found = []
    for name in ("explain", "why", "lint", "graph", "history", "watch", "picture", "verify"):
        for words in ([name, "--help"], [name, "--no-such-word", "more", "words", "than", "it", "takes"]):
            ended = subprocess.run([os.path.join(TOOLS, words[0]), *words[1:]], capture_output=True, text=True)
            found.append(f"== {' '.join(words[:2])}\n{ended.stdout}{ended.stderr}" + (f"status {ended.returncode}\n" if ended.returncode else ""))
    compare.text("tools/stored/scripts.txt", "\n".join(found))


def verify_watch(compare, room):
    """What tools/watch says of a file that is saved four times: right, changed, wrong, failing."""
    here = os.path.join(room, "watch")
    os.makedirs(here)
    right = read(os.path.join(EXAMPLES, "guide", "app.toml"))
    saves = [right, right.replace("8080", "9090"), right.replace('produces = ["Config"]', 'produces = ["Confg"]'), right.replace('Config("8080")', "Config(8080)")]
    found = []
    with folder(here):
        watched = watch.Watch("app.toml", "out")
        for number, text in enumerate(saves):
            with open("app.toml", "w", encoding="utf-8") as file:
                file.write(text)
            os.utime("app.toml", (number, number))
            compare.holds("tools/watch doesn't see that a file was saved", watched.is_saved() and not watched.is_saved())
            found.append(f"== save {number + 1}\n{watched.look()}")
    compare.text("tools/stored/watch.txt", "\n".join(found))


def verify_page_commands(compare, room):
    """Each page's files and commands, by themselves in a folder of their own."""
    for page in verify_pages.pages():
        here = verify_pages.prepared(os.path.join(room, "pages", page.replace("/", "_")))
        compare.text(page, verify_pages.tried(page, here))


def verify_page_tables(compare, room):
    """Tables and links of the pages."""
    for what, wrong in (
        ("refused bodies in docs/LANGUAGE.md", verify_pages.body_rows(room)),
        ("wrong lines in docs/PROJECT_FILE.md", verify_pages.fault_rows(room)),
        ("tables of words", verify_pages.word_rows()),
        ("values in docs/TEXTS.md", verify_pages.value_rows()),
        ("what to write instead in docs/LANGUAGE.md", verify_pages.without_rows(room)),
        ("the index of examples", verify_pages.unlisted_examples()),
        ("links", verify_pages.broken_links()),
    ):
        compare.holds(f"{what}: {wrong}", not wrong)


CHECKS = [
    verify_reader,
    verify_explain,
    verify_piped,
    verify_why,
    verify_lint,
    verify_graph,
    verify_history,
    verify_schema,
    verify_retelling,
    verify_vscode,
    verify_script,
    verify_scripts,
    verify_watch,
    verify_page_commands,
    verify_page_tables,
]


def main(words):
    """Runs all comparisons; 0 where everything is as stored."""
    if words not in ([], ["--store"]):
        print("usage: tools/verify [--store]")
        return 1
    compare = Comparison(bool(words))
    with tempfile.TemporaryDirectory() as room:
        for check in CHECKS:
            check(compare, room)
    print(f"tools: {compare.passed} passed, {compare.failed} failed")
    return 1 if compare.failed else 0

