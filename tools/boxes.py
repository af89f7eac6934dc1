"""Pictures of the processes of a specification: boxes in one another, as plain text and as SVG. They are laid out once, in characters.

A box is a process, a parallel composition, a `hide`, or another operator; processes that only act by themselves have nothing inside.
"""
import specification
from charts import element, number

# The most characters side by side, beyond which boxes stand below one another; in pixels, a character and a line.
WIDEST, WIDE, HIGH = 110, 8.0, 22
TRANSPARENT = {"guard", "let", "value", "gates", "prefix", "internal"}
EDGES = {"process": "-|", "hide": "~|", "operator": ".:"}
STYLE = """\
text { font-family: "DejaVu Sans Mono", Menlo, monospace; font-size: 12.5px; fill: #1c2733; }
.process { fill: #fbf3e0; stroke: #b08a3e; } .operator { fill: #f4f7fa; stroke: #9aa7b4; } .hide { fill: #fff; stroke: #6d7a88; stroke-dasharray: 5 4; }
"""


class Box:
    """A box: its kind, its title and the boxes in it; where it stands in the box round it, and how wide and high it is, in characters."""

    def __init__(self, kind, title, inside):
        self.kind, self.title, self.inside = kind, title, inside
        self.across = self.down = 0
        widths = [box.width for box in inside]
        beside = sum(widths) + len(widths) + 3 <= WIDEST
        at = 0
        for box in inside:
            box.across, box.down = (2 + at, 1) if beside else (2, 1 + at)
            at += box.width + 1 if beside else box.height
        inner = sum(widths) + len(widths) - 1 if beside else max(widths, default=0)
        self.width = max(inner + 4, len(title) + 6)
        self.height = 2 + (max((box.height for box in inside), default=0) if beside else at)


def named(gates, names, hidden):
    """Gates as they are called outside, those in parentheses that are hidden."""
    outside = [names.get(gate.lower(), gate) for gate in gates]
    return ", ".join(f"({gate})" if gate.lower() in hidden else gate for gate in outside)


def chain(node):
    """The sides of an operator, with those of the same operator on its right."""
    sides = [node.parts[0]]
    while node.parts[1].kind == node.kind and node.parts[1].name == node.name:
        node = node.parts[1]
        sides.append(node.parts[0])
    return sides + [node.parts[1]]


def operator_title(node, names, hidden):
    """What stands over the sides of an operator."""
    if node.kind == "parallel":
        return f"|[{named(node.gates, names, hidden)}]|" if node.gates else node.name
    return {"choice": "[]", "enable": ">>", "disable": "[>"}[node.kind]


def first_of(node):
    """What a behaviour that calls nothing begins with."""
    while node.parts and node.kind not in ("prefix", "internal"):
        node = node.parts[0]
    return f"{node.name}; .." if node.kind in ("prefix", "internal") else node.name or node.kind


def box_of(node, names, hidden, calls):
    """The box of a behaviour, or None where it calls nothing but what it stands in; with the processes that are called round it."""
    if node.kind in TRANSPARENT:
        return box_of(node.parts[0], names, hidden, calls)
    if node.kind == "relabel":
        return box_of(node.parts[0], {**names, **{gate: names.get(image.lower(), image) for gate, image in node.gates.items()}}, hidden, calls)
    if node.kind == "hide":
        inner = {**names, **{gate.lower(): gate for gate in node.gates}}
        inside = box_of(node.parts[0], inner, hidden | {gate.lower() for gate in node.gates}, calls)
        return Box("hide", f"hide {', '.join(node.gates)}", [inside] if inside else [])
    if node.kind == "call":
        return process_box(node, names, hidden, calls)
    if node.kind not in ("parallel", "choice", "enable", "disable"):
        return None
    inside = [box_of(side, names, hidden, calls) for side in chain(node)]
    if node.kind == "parallel":
        inside = [box or Box("process", first_of(side), []) for box, side in zip(inside, chain(node))]
    inside = [box for box in inside if box]
    return Box("operator", operator_title(node, names, hidden), inside) if len(inside) > 1 else inside[0] if inside else None


def process_box(call, names, hidden, calls):
    """The box of a process that is called."""
    process = call.scope.find(call.name)
    if process in calls:
        return None
    inner = {gate.lower(): names.get(actual.lower(), actual) for gate, actual in zip(process.gates, call.gates)}
    inside = box_of(process.body, inner, hidden, calls | {process})
    return Box("process", process.name + (f" [{named(call.gates, names, hidden)}]" if call.gates else ""), [inside] if inside else [])


def picture(text):
    """The box of a specification."""
    whole = specification.read(text)
    inside = box_of(whole.body, {}, frozenset(), frozenset())
    return Box("process", whole.name + (f" [{', '.join(whole.gates)}]" if whole.gates else ""), [inside] if inside else [])


def placed(box, across=0, down=0):
    """All boxes from the outermost on, each with where it stands in the picture."""
    across, down = across + box.across, down + box.down
    yield box, across, down
    for inner in box.inside:
        yield from placed(inner, across, down)


def as_text(box):
    """A picture as plain text."""
    grid = [[" "] * box.width for _ in range(box.height)]
    for one, across, down in placed(box):
        flat, steep = EDGES[one.kind]
        for row in range(one.height):
            edge = row in (0, one.height - 1)
            grid[down + row][across:across + one.width] = ["+" if edge else steep, *((flat if edge else " ") * (one.width - 2)), "+" if edge else steep]
        grid[down][across + 2:across + 4 + len(one.title)] = f" {one.title} "
    return "\n".join("".join(row).rstrip() for row in grid) + "\n"


def as_svg(box):
    """A picture as SVG."""
    wide, high = number((box.width + 2) * WIDE), number((box.height + 1.5) * HIGH)
    lines = [f'<svg xmlns="http://www.w3.org/2000/svg" width="{wide}" height="{high}" viewBox="0 0 {wide} {high}">', f"<style>{STYLE}</style>",
             element("rect", width="100%", height="100%", fill="#fff")]
    for one, across, down in placed(box):
        left, top = (across + 1) * WIDE, (down + 0.5) * HIGH
        lines.append(element("rect", of=one.kind, x=left, y=top, width=one.width * WIDE, height=one.height * HIGH - 4, rx=5))
        lines.append(element("text", one.title, of="title", x=left + 1.5 * WIDE, y=top + 15))
    return "\n".join(lines + ["</svg>"]) + "\n"
