"""What of editors/ and of the schema can be checked without an editor."""

import json
import os
import re

from . import schema, toml_tree
from .body import KEYWORDS, tokens
from .program import run
from .project import Project
from .source import Source

VSCODE = os.path.join(schema.TOP, "editors", "vscode")
# What kind of token each scope of the grammar is.
KINDS = {
    "keyword.control": "keyword",
    "keyword.other": "keyword",
    "constant.language": "keyword",
    "variable.language": "keyword",
    "constant.numeric": "number",
    "entity.name.type": "name",
    "variable.other": "name",
    "keyword.operator": "sign",
    "punctuation": "sign",
}
# What the snippet of an extension has to declare for the other snippets.
DECLARED = '{name = "Router", kind = "simple"},'
MORE = ['{name = "Config", kind = "simple"},', '{name = "Started", kind = "empty"},']


def schema_table(files):
    """For each file whether the program takes it for a project, and what the schema says of it; and the
    files that are projects and that the schema refuses."""
    checker = schema.Checker(schema.load())
    lines, wrong = [], []
    for shown, path in files:
        status, text = run(["plan", path])
        try:
            with open(path, encoding="utf-8") as file:
                faults = checker.faults(toml_tree.read(file.read()).plain())
        except (toml_tree.TomlFault, UnicodeDecodeError):
            faults = [("", "is no TOML")]
        if status in (0, 3):
            wrong += [shown] if faults else []
            continue
        said = "; ".join(f"{where or 'the file'} {what}" for where, what in faults)
        lines.append(f"{shown}: {text.strip().removeprefix('project refused: ')}: {said or 'taken by the schema'}")
    return "\n".join(lines) + "\n", wrong


def load(*path):
    with open(os.path.join(VSCODE, *path), encoding="utf-8") as file:
        return json.load(file)


def named_files():
    """The files that package.json names, which have to be there."""
    contributes = load("package.json")["contributes"]
    return [it["path"] for key in ("grammars", "snippets") for it in contributes[key]]


def matcher():
    """The problem matcher's pattern."""
    return re.compile(load("package.json")["contributes"]["problemMatchers"][0]["pattern"]["regexp"], re.MULTILINE)


def coloured(text):
    """The tokens of a body as the grammar finds them, with their kinds."""
    grammar = load("syntaxes", "body.tmLanguage.json")
    rules = [(re.compile(it["match"]), it["name"]) for it in grammar["repository"]["body"]["patterns"] if "match" in it]
    found, at = [], 0
    while at < len(text):
        if text[at] == '"':
            end = re.compile(r'"(?:[^"\\]|\\.)*"').match(text, at).end()
            found.append(("text", text[at:end]))
            at = end
            continue
        hits = [(rule.match(text, at), name) for rule, name in rules]
        hit, name = next(((hit, name) for hit, name in hits if hit), (None, ""))
        if hit is None:
            at += 1
            continue
        found.append((KINDS[name.removesuffix(".quarkus-body")], hit.group()))
        at = hit.end()
    return found


def differently_coloured(files):
    """The bodies of project files whose tokens the grammar doesn't find."""
    wrong = []
    for _, path in files:
        with open(path, encoding="utf-8") as file:
            project = Project.of(Source(path, file.read()))
        for owner in project.steps + project.methods():
            if owner.body is None:
                continue
            wanted = [(it.kind, it.text) for it in tokens(owner.body.value) if it.kind != "end"]
            if coloured(owner.body.value) != wanted:
                wrong.append(f"{path} {owner.name}")
    return wrong


def grammar_keywords():
    """The words that the grammar takes for keywords, sorted."""
    grammar = load("syntaxes", "body.tmLanguage.json")
    words = [it["match"] for it in grammar["repository"]["body"]["patterns"] if "(?:" in it.get("match", "")]
    return sorted(word for it in words for word in re.search(r"\(\?:([a-z|]+)\)", it).group(1).split("|"))


def keywords():
    return sorted(KEYWORDS)


def snippet_project():
    """A project file made of the snippets, with their defaults: it has to be one that can be planned."""
    snippets = {key: expanded("\n".join(it["body"])) for key, it in load("snippets", "project.json").items()}
    head, rest = snippets["Project file"].split("\n\n", 1)
    extension = snippets["Extension"].replace(DECLARED, "\n  ".join([DECLARED, *MORE, snippets["Ordered item"]]))
    recorder = snippets["Recorder"].replace("LogRecorder", "WebRecorder").replace("say", "listen")
    parts = [extension, snippets["Bean"], recorder, snippets["Default"], snippets["Step"], snippets["Recording step"]]
    return "\n".join([head.replace("Ready", "Started"), "", rest, "", *parts]) + "\n"


def expanded(text):
    """A snippet's text with its defaults."""
    text = re.sub(r"\$\{\d+\|([^,|]*)[^|]*\|\}", r"\1", text)
    return re.sub(r"\$\{\d+:([^}]*)\}", r"\1", text).replace("$0", "")
