"""tools/graph: the chain of a project as a picture.

    tools/graph FILE [OUT] [--svg | --dot]

A box is a step, what stands between two boxes is the item that goes from one to the other. Steps that
aren't needed are grey, inactive ones dashed, a failed one is red. With OUT, the folder of a build, a
number says when a step started. The picture is printed: SVG, or DOT for Graphviz."""

from dataclasses import dataclass, field
from html import escape

from . import history, layout
from .chain import Chain
from .project import Unreadable, load
from .source import width

USAGE = "usage: tools/graph FILE [OUT] [--svg | --dot]"
COLOURS = {"needed": ("#e8f1fb", "#2a6fb0"), "unneeded": ("#f3f3f3", "#aaaaaa"), "inactive": ("#f3f3f3", "#aaaaaa"), "failed": ("#fbe3e3", "#c62828")}
STYLE = (
    "text{font:12px sans-serif;dominant-baseline:central}.item{font-size:11px;fill:#555}.pale{fill:#999}"
    ".number{font-size:10px;fill:#fff}.edge{fill:none;stroke:#777;stroke-width:1.2}.weak{stroke-dasharray:4 3}.faint{stroke:#ccc}"
)
TIP = (
    '<defs><marker id="tip" viewBox="0 0 8 8" refX="7" refY="4" markerWidth="7" markerHeight="7" orient="auto">'
    '<path d="M0 0L8 4L0 8z" fill="#777"/></marker></defs>'
)


def main(words):
    """Prints the picture; 0, or 1 where a file can't be read."""
    files = [it for it in words if not it.startswith("--")]
    forms = [it for it in words if it.startswith("--")]
    if len(files) not in (1, 2) or any(it not in ("--svg", "--dot") for it in forms):
        print(USAGE)
        return 1
    try:
        picture = Picture.of(load(files[0]), history.load(files[1]) if len(files) == 2 else [])
    except (Unreadable, history.HistoryFault) as fault:
        print(fault)
        return 1
    print(dot(picture) if "--dot" in forms else svg(picture), end="")
    return 0


@dataclass
class Picture:
    """Steps with their state, and the item nodes between them. A link is (from, to, is weak or
    optional, is faint); a node is ("step", number), ("item", name) or ("final", name)."""

    chain: Chain
    states: dict = field(default_factory=dict)
    order: dict = field(default_factory=dict)
    links: list = field(default_factory=list)

    @staticmethod
    def of(project, events):
        picture = Picture(Chain(project))
        failed = {it.step for it in events if it.word == "fail"}
        started = [it.step for it in events if it.word == "start"]
        picture.order = {name: i for i, name in enumerate(started, 1)}
        for step in project.steps:
            picture.states[step.number] = picture.state(step, failed)
        picture.find_links()
        return picture

    def state(self, step, failed):
        if step.full_name in failed:
            return "failed"
        if self.chain.is_needed(step):
            return "needed"
        return "unneeded" if self.chain.is_active(step) else "inactive"

    def find_links(self):
        """Who produces what for whom; items that go nowhere have no node."""
        project = self.chain.project
        finals = {it.name for it in project.finals}
        for item in project.items:
            takers = self.chain.consumers[item.name]
            if not takers and item.name not in finals:
                continue
            for step in self.chain.producers[item.name]:
                counts = step in self.chain.effective[item.name] and self.chain.is_needed(step)
                weak = "weak" in step.produced(item.name).marks
                self.links.append((("step", step.number), ("item", item.name), weak, not counts))
            for step in takers:
                optional = "optional" in step.consumed(item.name).marks
                self.links.append((("item", item.name), ("step", step.number), optional, not self.chain.is_needed(step)))

    def finals(self):
        return {it.name for it in self.chain.project.finals}

    def nodes(self):
        """The nodes in the order of the file, with their texts."""
        linked = {it for start, end, *_ in self.links for it in (start, end)} | {("item", it) for it in self.finals()}
        steps = [(("step", it.number), it.full_name) for it in self.chain.project.steps]
        return steps + [(("item", it.name), it.name) for it in self.chain.project.items if ("item", it.name) in linked]


def dot(picture):
    """The chain for Graphviz: items stand on the edges."""
    project = picture.chain.project
    lines = ["digraph chain {", "  rankdir = LR;"]
    lines.append('  node [shape = box, style = "rounded,filled", fontname = "sans-serif", fontsize = 11];')
    lines.append('  edge [fontname = "sans-serif", fontsize = 9];')
    for step in project.steps:
        state = picture.states[step.number]
        fill, line = COLOURS[state]
        number = f"{picture.order[step.full_name]}. " if step.full_name in picture.order else ""
        dashed = ', style = "rounded,filled,dashed"' if state == "inactive" else ""
        lines.append(f'  s{step.number} [label = "{number}{step.full_name}", fillcolor = "{fill}", color = "{line}"{dashed}];')
    for item in project.items:
        if item.name in picture.finals():
            lines.append(f'  "{item.name}" [shape = ellipse, fillcolor = "#eef7ec", color = "#4a8f3c"];')
    for step in project.steps:
        for entry in step.produces:
            lines += dot_edges(picture, step, entry)
    return "\n".join(lines + ["}"]) + "\n"


def dot_edges(picture, step, entry):
    """The edges of one production: to each step that consumes it, and to the final item."""
    chain = picture.chain
    counts = step in chain.effective.get(entry.name, ()) and chain.is_needed(step)
    lines = []
    for taker in chain.consumers.get(entry.name, ()):
        marks = [f'label = "{entry.name}"']
        if "weak" in entry.marks or "optional" in taker.consumed(entry.name).marks:
            marks.append("style = dashed")
        if not counts or not chain.is_needed(taker):
            marks += ['color = "#cccccc"', 'fontcolor = "#999999"']
        lines.append(f"  s{step.number} -> s{taker.number} [{', '.join(marks)}];")
    if entry.name in picture.finals():
        lines.append(f'  s{step.number} -> "{entry.name}"' + (";" if counts else ' [color = "#cccccc"];'))
    return lines


def svg(picture):
    """The chain as a picture of its own."""
    nodes = picture.nodes()
    widths = {key: measure(key, text, picture) for key, text in nodes}
    placed = layout.place(widths, [(start, end) for start, end, *_ in picture.links])
    wide, high = round(placed.width), round(placed.height)
    title = f"The chain of {picture.chain.project.app}"
    lines = [f'<svg xmlns="http://www.w3.org/2000/svg" viewBox="0 0 {wide} {high}" width="{wide}" height="{high}" role="img" aria-label="{escape(title)}">']
    lines += [f"<title>{escape(title)}</title>", f"<style>{STYLE}</style>"]
    lines.append(TIP)
    lines += [edge(link, placed.routes[link[:2]]) for link in picture.links if link[:2] in placed.routes]
    for key, text in nodes:
        lines += box(picture, key, text, placed.places[key], widths[key])
    return "\n".join(lines + ["</svg>"]) + "\n"


def measure(key, text, picture):
    """The width of a node in pixels."""
    if key[0] == "item":
        return round(width(text) * 6.3) + 12
    return round(width(text) * 7) + 18 + (18 if text in picture.order else 0)


def edge(link, points):
    """A curve through the points, with a tip where it reaches a step."""
    start, end, dashed, faint = link
    path = f"M{points[0][0]:.0f} {points[0][1]:.0f}"
    for (x0, y0), (x1, y1) in zip(points, points[1:]):
        middle = (x0 + x1) / 2
        path += f"C{middle:.0f} {y0:.0f} {middle:.0f} {y1:.0f} {x1:.0f} {y1:.0f}"
    names = "edge" + (" weak" if dashed else "") + (" faint" if faint else "")
    tip = ' marker-end="url(#tip)"' if end[0] == "step" else ""
    return f'<path class="{names}" d="{path}"{tip}/>'


def box(picture, key, text, at, wide):
    """The elements of a node."""
    draw = item_box if key[0] == "item" else step_box
    return draw(picture, key, text, at, wide)


def item_box(picture, key, text, at, wide):
    """An item, round; a final one is green."""
    x, y = at
    fill, line = ("#eef7ec", "#4a8f3c") if text in picture.finals() else ("#ffffff", "#cccccc")
    shape = f'<rect x="{x:.0f}" y="{y - 10:.0f}" width="{wide}" height="20" rx="10" fill="{fill}" stroke="{line}"/>'
    label = f'<text class="item" x="{x + wide / 2:.0f}" y="{y:.0f}" text-anchor="middle">{escape(text)}</text>'
    return [f'<g data-item="{text}">{shape}{label}</g>']


def step_box(picture, key, text, at, wide):
    """A step by its state, with the number of its start where there is one."""
    x, y = at
    state = picture.states[key[1]]
    fill, line = COLOURS[state]
    dashes = ' stroke-dasharray="4 3"' if state == "inactive" else ""
    parts = [f'<rect x="{x:.0f}" y="{y - 13:.0f}" width="{wide}" height="26" rx="5" fill="{fill}" stroke="{line}"{dashes}/>']
    left = x + 9
    if text in picture.order:
        parts.append(f'<circle cx="{x + 13:.0f}" cy="{y:.0f}" r="9" fill="{line}"/>')
        parts.append(f'<text class="number" x="{x + 13:.0f}" y="{y:.0f}" text-anchor="middle">{picture.order[text]}</text>')
        left += 18
    pale = ' class="pale"' if state in ("unneeded", "inactive") else ""
    parts.append(f'<text{pale} x="{left:.0f}" y="{y:.0f}">{escape(text)}</text>')
    return [f'<g data-step="{text}">' + "".join(parts) + "</g>"]
