"""Charts and pictures of processes in the languages of other tools: Mermaid and PlantUML. Actions have no direction in LOTOS: a line without an arrow, or
with two, joins the first and the last of those that take part; where they are more than two, or one alone, a note stands over them.
"""


def plain(text):
    """A text without what these languages read as their own."""
    return text.replace("#", "no. ").replace(";", ",").replace('"', "'").replace("\n", " ").replace("[", "(").replace("]", ")")


def chart_as_mermaid(chart):
    """A chart as a sequence diagram of Mermaid."""
    lines = ["sequenceDiagram"]
    lines += [f"    {'actor' if at < chart.clients else 'participant'} c{at} as {plain(column.name)}" for at, column in enumerate(chart.columns)]
    for row in chart.rows:
        first, last, label = ends(row)
        lines.append(f"    c{first}->c{last}: {label}" if len(row.joined) == 2 else f"    Note over c{first}{f',c{last}' if last > first else ''}: {label}")
    return "\n".join(lines) + "\n"


def chart_as_plantuml(chart):
    """A chart as a sequence diagram of PlantUML."""
    lines = ["@startuml", f"title {plain(chart.title)}"]
    lines += [f'{"actor" if at < chart.clients else "participant"} "{plain(column.name)}" as c{at}' for at, column in enumerate(chart.columns)]
    for row in chart.rows:
        first, last, label = ends(row)
        lines.append(f"c{first} <-> c{last} : {label}" if len(row.joined) == 2 else f"note over c{first}{f', c{last}' if last > first else ''} : {label}")
    return "\n".join([*lines, "@enduml"]) + "\n"


def ends(row):
    """The first and the last column that take part in a row, and what it says."""
    joined = row.joined or [0]
    return joined[0], joined[-1], plain((f"{row.number} " if row.number else "") + row.label)


def box_as_mermaid(box):
    """A picture of processes as a flowchart of Mermaid."""
    lines, numbers = ["flowchart TB"], iter(range(1_000_000))

    def put(one, margin):
        name = f"b{next(numbers)}"
        if not one.inside:
            lines.append(f'{margin}{name}["{plain(one.title)}"]')
            return
        lines.append(f'{margin}subgraph {name}["{plain(one.title)}"]')
        for inner in one.inside:
            put(inner, margin + "    ")
        lines.append(f"{margin}end")

    put(box, "    ")
    return "\n".join(lines) + "\n"


def box_as_plantuml(box):
    """A picture of processes as rectangles of PlantUML."""
    lines = ["@startuml"]

    def put(one, margin):
        lines.append(f'{margin}rectangle "{plain(one.title)}"' + (" {" if one.inside else ""))
        for inner in one.inside:
            put(inner, margin + "  ")
        if one.inside:
            lines.append(margin + "}")

    put(box, "")
    return "\n".join([*lines, "@enduml"]) + "\n"


def meetings_as_mermaid(chart):
    """Who meets at which gates as a flowchart of Mermaid: a box for each process, a circle for each gate."""
    lines = ["flowchart LR"] + [f'    c{at}["{plain(column.name)}"]' for at, column in enumerate(chart.columns)]
    for at, row in enumerate(chart.rows):
        lines.append(f'    g{at}(("{plain(row.label)}"))')
        lines += [f"    c{one} --- g{at}" for one in row.joined]
    return "\n".join(lines) + "\n"


def meetings_as_plantuml(chart):
    """Who meets at which gates as boxes and circles of PlantUML."""
    lines = ["@startuml"] + [f'rectangle "{plain(column.name)}" as c{at}' for at, column in enumerate(chart.columns)]
    for at, row in enumerate(chart.rows):
        lines.append(f'circle "{plain(row.label)}" as g{at}')
        lines += [f"c{one} -- g{at}" for one in row.joined]
    return "\n".join([*lines, "@enduml"]) + "\n"
