"""How a script becomes a tool: its words, its help, and how it ends."""

import signal
import sys


def run(tool):
    """Runs a tool's `main` with the words of the command line; `--help` prints what the tool is for. A
    reader that stops early, as `head` does, ends it without a word."""
    signal.signal(signal.SIGPIPE, signal.SIG_DFL)
    words = sys.argv[1:]
    if words in (["-h"], ["--help"]):
        print(tool.__doc__.strip())
        return 0
    try:
        return tool.main(words)
    except KeyboardInterrupt:
        return 130
