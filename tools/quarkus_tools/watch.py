"""tools/watch: plans and builds again whenever a project file is saved.

    tools/watch FILE OUT [--workers N]

After each save it says what is wrong with the file, or what the build did differently from the last one
that ended well. It goes on until it is interrupted."""

import os
import time

from . import explain, history
from .history_tool import difference
from .program import run

USAGE = "usage: tools/watch FILE OUT [--workers N]"
PAUSE = 0.3


class Watch:
    """A file under watch, with the events of the last build that ended well."""

    def __init__(self, file, out, options=()):
        self.file = file
        self.out = out
        self.options = list(options)
        self.seen = None
        self.events = self.written()

    def written(self):
        """The events of the history that stands in the folder, or None."""
        try:
            return history.load(self.out)
        except history.HistoryFault:
            return None

    def is_saved(self):
        """Whether the file isn't the one that was looked at last."""
        try:
            now = os.stat(self.file)
        except OSError:
            return False
        stamp = (now.st_mtime_ns, now.st_size, now.st_ino)
        saved = stamp != self.seen
        self.seen = stamp
        return saved

    def look(self):
        """Plans and builds; gives what there is to say."""
        words = ["build", self.file, self.out, *self.options]
        status, text = run(words)
        if status:
            return explain.explained(self.file, [words[0], *words[2:]], status, text) + "\n"
        last = text.rstrip("\n").rsplit("\n", 1)[-1]
        before, self.events = self.events, self.written()
        if before is None or self.events is None:
            return f"{last}\n"
        return f"{last}\n{difference(before, self.events)}"


def main(words):
    """Watches until it is interrupted."""
    if len(words) not in (2, 4) or any(it.startswith("-") for it in words[:2]):
        print(USAGE)
        return 1
    watch = Watch(words[0], words[1], words[2:])
    why = explain.unreadable(words[0])
    if why:
        print(f"{words[0]}: {why}")
        return 1
    while True:
        if watch.is_saved():
            print(f"-- {time.strftime('%H:%M:%S')} {words[0]}\n{watch.look()}", flush=True)
        time.sleep(PAUSE)
