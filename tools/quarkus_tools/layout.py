"""A layered layout of a directed graph, from left to right.

Nodes are keys with a width; `place` gives each its column, its x and y, and each edge a list of points.
Edges of a cycle are turned for the layout alone."""

from dataclasses import dataclass, field

GAP = 40
ROW = 34
SWEEPS = 12


@dataclass
class Layout:
    """Where nodes stand (the middle of their left side) and edges run."""

    places: dict = field(default_factory=dict)
    routes: dict = field(default_factory=dict)
    width: float = 0
    height: float = 0


def place(widths, edges):
    """The layout of nodes (key to width, in order) and edges (from, to)."""
    nodes = list(widths)
    forward = without_cycles(nodes, edges)
    layer = layers(nodes, forward)
    columns, chains = with_bends(nodes, forward, layer)
    neighbours = joined(chains)
    for sweep in range(SWEEPS):
        order(columns, neighbours, backwards=sweep % 2 == 1)
    rows = heights(columns, neighbours)
    return measured(columns, rows, widths, edges, chains)


def without_cycles(nodes, edges):
    """The edges with those turned that lead back on a walk in depth."""
    after = {it: [] for it in nodes}
    for start, end in edges:
        after[start].append(end)
    state, turned = {}, set()
    for root in nodes:
        if root in state:
            continue
        state[root] = "open"
        stack = [(root, iter(after[root]))]
        while stack:
            node, rest = stack[-1]
            step = next(rest, None)
            if step is None:
                state[node] = "done"
                stack.pop()
            elif state.get(step) == "open":
                turned.add((node, step))
            elif step not in state:
                state[step] = "open"
                stack.append((step, iter(after[step])))
    return {edge: (edge[1], edge[0]) if edge in turned else edge for edge in edges if edge[0] != edge[1]}


def layers(nodes, forward):
    """For each node its column: behind all that lead to it, as near as may be to what it leads to."""
    before, after = {it: [] for it in nodes}, {it: [] for it in nodes}
    for start, end in forward.values():
        before[end].append(start)
        after[start].append(end)
    layer, waiting = {}, {it: len(before[it]) for it in nodes}
    ready = [it for it in nodes if not waiting[it]]
    walked = []
    while ready:
        node = ready.pop(0)
        walked.append(node)
        layer[node] = max((layer[it] + 1 for it in before[node]), default=0)
        for it in after[node]:
            waiting[it] -= 1
            if not waiting[it]:
                ready.append(it)
    for node in reversed(walked):
        if after[node] and not before[node]:
            layer[node] = min(layer[it] for it in after[node]) - 1
    return layer


def with_bends(nodes, forward, layer):
    """Columns of nodes, with a bend in each column that an edge passes; and each edge's chain of both."""
    columns = [[] for _ in range(max(layer.values(), default=-1) + 1)]
    for node in nodes:
        columns[layer[node]].append(node)
    chains = {}
    for edge, (start, end) in forward.items():
        bends = [("bend", edge, column) for column in range(layer[start] + 1, layer[end])]
        for bend in bends:
            columns[bend[2]].append(bend)
        chains[edge] = [start, *bends, end]
    return columns, chains


def joined(chains):
    """What stands beside each node or bend, before it and behind it."""
    found = {}
    for chain in chains.values():
        for left, right in zip(chain, chain[1:]):
            found.setdefault(left, ([], []))[1].append(right)
            found.setdefault(right, ([], []))[0].append(left)
    return found


def order(columns, neighbours, backwards):
    """Sorts each column by the middle of what stands beside it in the column before, or behind."""
    side = 1 if backwards else 0
    sequence = range(len(columns) - 2, -1, -1) if backwards else range(1, len(columns))
    for column in sequence:
        other = {it: i for i, it in enumerate(columns[column + 1 if backwards else column - 1])}
        own = {it: i for i, it in enumerate(columns[column])}

        def middle(node):
            beside = sorted(other[it] for it in neighbours.get(node, ([], []))[side])
            return (sum(beside) / len(beside), own[node]) if beside else (own[node], own[node])

        columns[column].sort(key=middle)


def heights(columns, neighbours):
    """A row for each node and bend: near the middle of its neighbours, in the column's order."""
    rows = {it: float(i) for column in columns for i, it in enumerate(column)}
    for sweep in range(SWEEPS):
        for column in columns if sweep % 2 == 0 else columns[::-1]:
            wanted = [middle_row(it, rows, neighbours) for it in column]
            for it, row in zip(column, apart(wanted)):
                rows[it] = row
    lowest = min(rows.values(), default=0)
    return {it: row - lowest for it, row in rows.items()}


def middle_row(node, rows, neighbours):
    before, behind = neighbours.get(node, ([], []))
    beside = [rows[it] for it in before + behind]
    return sum(beside) / len(beside) if beside else rows[node]


def apart(wanted):
    """The rows nearest to the wanted ones that rise by at least one."""
    blocks = []
    for place, row in enumerate(wanted):
        blocks.append([row - place, 1])
        while len(blocks) > 1 and blocks[-2][0] > blocks[-1][0]:
            value, size = blocks.pop()
            blocks[-1] = [(blocks[-1][0] * blocks[-1][1] + value * size) / (blocks[-1][1] + size), blocks[-1][1] + size]
    found = [value for value, size in blocks for _ in range(size)]
    return [value + place for place, value in enumerate(found)]


def measured(columns, rows, widths, edges, chains):
    """The layout in pixels."""
    layout = Layout()
    left = GAP / 2
    for column in columns:
        widest = max((widths.get(it, 0) for it in column), default=0)
        for it in column:
            own = widths.get(it, 0)
            layout.places[it] = (left + (widest - own) / 2, ROW * (rows[it] + 1))
        left += widest + GAP
    layout.width = left - GAP / 2
    layout.height = ROW * (max(rows.values(), default=0) + 2)
    for edge in edges:
        if edge[0] != edge[1]:
            layout.routes[edge] = route(edge, chains[edge], layout.places, widths)
    layout.places = {it: at for it, at in layout.places.items() if it in widths}
    return layout


def route(edge, chain, places, widths):
    """The points of an edge, from its start's right side to its end's left side."""
    points = [(places[chain[0]][0] + widths[chain[0]], places[chain[0]][1])]
    points += [places[it] for it in chain[1:-1]]
    points.append(places[chain[-1]])
    return points if chain[0] == edge[0] else points[::-1]
