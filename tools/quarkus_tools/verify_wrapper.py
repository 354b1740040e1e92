"""What the script `quarkus`, its completion and its manual page do, tried without the toolchain: a
stand-in for `rt` makes the files that a build makes."""

import os
import re
import shutil
import subprocess

from .program import TOP

CRATES = "base: itoa\nabove may_wait=6: base\nbeside: base\nquarkus: above base\n"
RT = """#!/bin/sh
echo "rt: $*" | sed 's#plan .*/examples#plan examples#' >&2
[ ! -e ../../fails ] || exit 1
for name in base above; do
    mkdir -p "../$name/out/rlib"
    echo "$name" > "../$name/out/rlib/stamp"
done
mkdir -p out
printf '#!/bin/sh\\necho "ran $*"\\n' > out/quarkus
chmod +x out/quarkus
"""


def written(path, text, executable=False):
    os.makedirs(os.path.dirname(path), exist_ok=True)
    with open(path, "w", encoding="utf-8") as file:
        file.write(text)
    if executable:
        os.chmod(path, 0o755)


def made(room):
    """A small repository with the script, and folders for the PATH: with a link to it and with `rt`."""
    top = os.path.join(room, "repository")
    for name in ("base", "above", "beside", "quarkus"):
        written(os.path.join(top, "crates", name, "src", "lib.rt"), "")
    written(os.path.join(top, "crates.txt"), CRATES)
    written(os.path.join(top, "HANDLES"), "Handles allowed: none.\n")
    shutil.copy(os.path.join(TOP, "quarkus"), os.path.join(top, "quarkus"))
    written(os.path.join(room, "kit", "rt"), RT, executable=True)
    os.makedirs(os.path.join(room, "links"))
    os.symlink("../repository/quarkus", os.path.join(room, "links", "first"))
    os.symlink("first", os.path.join(room, "links", "quarkus"))
    return top


def called(room, *folders):
    """What `quarkus plan app.toml` prints and answers, with these folders on the PATH, numbers left out."""
    path = os.pathsep.join([*(os.path.join(room, it) for it in folders), os.path.join(room, "links"), "/usr/bin", "/bin"])
    ended = subprocess.run(["quarkus", "plan", "app.toml"], capture_output=True, text=True, env={"PATH": path, "TMPDIR": room}, cwd=room)
    errors = re.sub(r"\d+ (s|MB)\b", r"N \1", ended.stderr)
    return f"{ended.stdout}{errors}status {ended.returncode}\n"


def wrapper_texts(room):
    """What the script prints: without rt, with a build that fails, the first time, again, and anew."""
    top = made(room)
    found = [f"== without rt on the PATH\n{called(room)}"]
    written(os.path.join(top, "fails"), "")
    found.append(f"== where a proof fails\n{called(room, 'kit')}")
    os.remove(os.path.join(top, "fails"))
    found.append(f"== the first time\n{called(room, 'kit')}")
    found.append(f"== again\n{called(room, 'kit')}")
    later = os.path.getmtime(os.path.join(top, "crates", "quarkus", "out", "built")) + 5
    os.utime(os.path.join(top, "crates", "base", "src", "lib.rt"), (later, later))
    found.append(f"== after a change\n{called(room, 'kit')}")
    return "\n".join(found)


def completions(room):
    """What bash offers behind some words."""
    for name in ("app.toml", "Main.class", "other.txt"):
        written(os.path.join(room, "here", name), 'name = "router"\n')
    os.makedirs(os.path.join(room, "here", "folder"), exist_ok=True)
    lines = []
    for function, words in (
        ("_quarkus", ["quarkus", ""]),
        ("_quarkus", ["quarkus", "b"]),
        ("_quarkus", ["quarkus", "plan", ""]),
        ("_quarkus", ["quarkus", "dump", ""]),
        ("_quarkus", ["quarkus", "build", "app.toml", "--"]),
        ("_quarkus", ["quarkus", "build", "--workers", "3"]),
        ("_quarkus_tools", ["tools/why", "app.toml", ""]),
        ("_quarkus_tools", ["tools/history", "--"]),
    ):
        script = f"source {TOP}/tools/completion/quarkus.bash; COMP_WORDS=(\"$@\"); COMP_CWORD=$(($# - 1)); {function}; echo \"${{COMPREPLY[@]}}\""
        ended = subprocess.run(["bash", "-c", script, "bash", *words], capture_output=True, text=True, cwd=os.path.join(room, "here"))
        lines.append(f"{' '.join(words)}| {ended.stdout.strip()}{ended.stderr}")
    return "\n".join(lines) + "\n"


def wrong_syntax():
    """Completions that their shells don't read; a shell that isn't there is passed over."""
    files = [("bash", "quarkus.bash"), ("zsh", "_quarkus")]
    here = os.path.join(TOP, "tools", "completion")
    return [name for shell, name in files if shutil.which(shell) and subprocess.run([shell, "-n", os.path.join(here, name)]).returncode]


def statuses():
    """The statuses of the README's table and of the manual page, each with its words."""
    with open(os.path.join(TOP, "README.md"), encoding="utf-8") as file:
        table = re.findall(r"^\| (\d+) \| (.+) \|$", file.read(), re.MULTILINE)
    with open(os.path.join(TOP, "docs", "quarkus.1"), encoding="utf-8") as file:
        manual = re.findall(r"^(\d+)\|(.+)$", file.read(), re.MULTILINE)
    return [(number, text.replace("`", "")) for number, text in table], [(number, re.sub(r"\\f[BR]", "", text)) for number, text in manual]


def manual_faults():
    """What groff finds wrong in the manual page; nothing where it isn't there."""
    if not shutil.which("groff"):
        return ""
    return subprocess.run(["groff", "-t", "-man", "-Tutf8", "-ww", "-z", os.path.join(TOP, "docs", "quarkus.1")], capture_output=True, text=True).stderr
