"""The program: where it is, and running it."""

import os
import subprocess

TOP = os.path.dirname(os.path.dirname(os.path.dirname(os.path.realpath(__file__))))
# What the environment's QUARKUS names, else `quarkus` beside tools/.
PROGRAM = os.path.abspath(os.environ.get("QUARKUS") or os.path.join(TOP, "quarkus"))
# The statuses of the script `quarkus` where there is no program.
UNPROVED = (126, 127)


def run(words):
    """Runs the program; gives its status and what it printed."""
    ended = subprocess.run([PROGRAM, *words], stdout=subprocess.PIPE)
    return ended.returncode, ended.stdout.decode("utf-8", "replace")
