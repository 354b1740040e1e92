"""One page with a build's graph and its steps, what they took, put and recorded, with a search."""

from html import escape

from . import graph
from .words import count

STYLE = """
body{font:14px/1.4 sans-serif;margin:1.5em;color:#222;max-width:90em}
h1{font-size:1.4em}
input{font:inherit;padding:.3em .5em;width:24em;max-width:100%}
.picture{overflow:auto;border:1px solid #ddd;margin:1em 0;max-height:70vh}
.picture g[data-step]{cursor:pointer}
.picture g.found rect{stroke:#e08a00;stroke-width:3}
details{border:1px solid #ddd;border-radius:4px;margin:.3em 0;padding:.3em .6em}
details.failed{border-color:#c62828;background:#fdf3f3}
summary{cursor:pointer}
summary span{color:#777;margin-left:.7em}
code{font:12px monospace;white-space:pre-wrap;overflow-wrap:anywhere;display:block;padding:.1em 0 .1em 1em}
.hidden{display:none}
"""
SCRIPT = """
const search = document.getElementById("search");
const steps = [...document.querySelectorAll("details")];
const boxes = [...document.querySelectorAll("g[data-step]")];
search.addEventListener("input", () => {
  const wanted = search.value.toLowerCase();
  for (const step of steps) {
    const here = step.textContent.toLowerCase().includes(wanted);
    step.classList.toggle("hidden", !here);
    const box = boxes.find(it => it.dataset.step === step.id);
    if (box) box.classList.toggle("found", here && wanted !== "");
  }
});
search.value = decodeURIComponent(location.hash.slice(1));
search.dispatchEvent(new Event("input"));
for (const box of boxes) {
  box.addEventListener("click", () => {
    const step = document.getElementById(box.dataset.step);
    if (step) { step.open = true; step.scrollIntoView({block: "center"}); }
  });
}
"""


def page(picture, events):
    """The page's text."""
    app = picture.chain.project.app
    own = {}
    for it in events:
        own.setdefault(it.step, []).append(it)
    failed = next((it for it in events if it.word == "fail"), None)
    result = f"{failed.step} failed: {failed.text}" if failed else f"{count(len(own), 'step')} ended"
    lines = ["<!DOCTYPE html>", '<html lang="en">', "<head>", '<meta charset="utf-8">']
    lines += [f"<title>The build of {escape(app)}</title>", f"<style>{STYLE}</style>", "</head>", "<body>"]
    lines += [f"<h1>The build of {escape(app)}</h1>", f"<p>{escape(result)}.</p>"]
    lines += [f'<div class="picture">\n{graph.svg(picture)}</div>']
    lines += ['<p><label>Search <input id="search" type="search" placeholder="a step, an item, a value"></label></p>']
    lines += [details(picture, step, own[step]) for step in own]
    return "\n".join(lines + [f"<script>{SCRIPT}</script>", "</body>", "</html>"]) + "\n"


def details(picture, step, events):
    """What one step took, put and recorded."""
    word = events[-1].word
    puts = sum(it.word == "put" for it in events)
    told = f"{count(sum(it.word == 'take' for it in events), 'take')}, {count(puts, 'put')}, {count(len(events[-1].calls), 'call')}"
    lines = [f'<details id="{step}"{" class=" + chr(34) + "failed" + chr(34) if word == "fail" else ""}>']
    lines.append(f"<summary>{picture.order[step]}. {step}<span>{told}</span></summary>")
    lines += [f"<code>{escape(line)}</code>" for it in events for line in it.lines() if it.word != "start"]
    return "\n".join(lines + ["</details>"])
