"""tools/picture: a browser's picture of the page that tools/history makes of examples/shop.

    tools/picture            writes docs/shop-history.png
    tools/picture --check    tries the page in a browser: its search has to find what it should

It wants a browser that runs without a window: chromium or chrome."""

import os
import re
import shutil
import subprocess
import tempfile

from . import history, history_page
from .graph import Picture
from .program import TOP
from .project import load

BROWSERS = ("chromium", "chromium-browser", "google-chrome", "chrome")
USAGE = "usage: tools/picture [--check]"


def main(words):
    """0 where the picture was made or the page is right."""
    if words not in ([], ["--check"]):
        print(USAGE)
        return 1
    browser = next((it for it in map(shutil.which, BROWSERS) if it), None)
    if browser is None:
        print("tools/picture: no browser is on the PATH; nothing was tried")
        return 0
    with tempfile.TemporaryDirectory() as room:
        path = os.path.join(room, "page.html")
        with open(path, "w", encoding="utf-8") as file:
            file.write(shop_page())
        if words:
            return checked(browser, path, room)
        picture = os.path.join(TOP, "docs", "shop-history.png")
        opened(browser, path, room, f"--screenshot={picture}", "--window-size=1600,1150", "--hide-scrollbars")
        print(f"docs/shop-history.png: {os.path.getsize(picture)} bytes")
        return 0


def shop_page():
    """The page of the shop's stored build."""
    shop = os.path.join(TOP, "examples", "shop")
    events = history.load(os.path.join(shop, "build.files", "built"))
    return history_page.page(Picture.of(load(os.path.join(shop, "app.toml")), events), events)


def opened(browser, path, room, *flags, search=""):
    """What the browser prints of the page, opened with a search."""
    words = [browser, "--headless", "--disable-gpu", f"--user-data-dir={room}/profile", *flags]
    words += ["--no-sandbox"] if os.geteuid() == 0 else []
    url = f"file://{path}" + (f"#{search}" if search else "")
    return subprocess.run([*words, url], capture_output=True, text=True, timeout=120).stdout


def checked(browser, path, room):
    """Looks for steps by a value that two of them have."""
    page = opened(browser, path, room, "--dump-dom", search="pool.waiting")
    shown = re.findall(r'<details id="([\w.]+)"(?: class="")?>', page)
    marked = re.findall(r'<g data-step="([\w.]+)" class="found">', page)
    right = shown == ["datasource.gauges_of_pool", "core.metrics"] and sorted(marked) == sorted(shown)
    print(f"tools/picture: the search for pool.waiting shows {', '.join(shown)}: {'as it should' if right else 'wrong'}")
    return 0 if right else 1
