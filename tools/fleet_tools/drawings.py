"""Pictures as SVG and as DOT."""
import math
import os
import textwrap
from collections import Counter
from html import escape

from .layouts import HEIGHT, MARGIN, layout_of
from .pictures import Role, Shape, Tie

STYLE = """
text { font: 12px "DejaVu Sans Mono", Menlo, Consolas, monospace; fill: #1b2733 }
.title { font-size: 15px; font-weight: bold } .row, .legend { font-size: 11px; fill: #5b6875 }
.band { fill: #f3f6f9 }
rect.box { fill: #ffffff; stroke: #54687a } .asked rect.box { fill: #dcebfb; stroke: #1d5fa8; stroke-width: 2 }
.stops rect.box, .faulty rect.box { fill: #fdeaea; stroke: #c62828; stroke-width: 1.5 } .stops text, .faulty text { fill: #a31515 }
path { fill: none } .needs { stroke: #2c4a68; stroke-width: 1.3 } .wishes { stroke: #5f8f5a; stroke-dasharray: 5 3 }
.order { stroke: #9aa6b2; stroke-dasharray: 1 3 } .triggers { stroke: #8a5aa8; stroke-dasharray: 8 3 }
.conflict, .waited, .requisite { stroke: #c62828; stroke-width: 2 }
.many path { opacity: 0.6 } .many path.pale { opacity: 0.3 }
"""
# The same of a picture that is searched.
LIVE_STYLE = """
g[data-unit] { cursor: pointer } .dim { opacity: 0.15 } .many path.dim { opacity: 0.06 } .many path.lit { opacity: 1 } .lit { stroke-width: 2 }
.found rect.box { fill: #fff2b8; stroke: #b07a00; stroke-width: 2 }
#bar div { font: 13px sans-serif; text-align: right; background: #ffffffd0; padding: 3px } #bar input { width: 11em } #bar button { min-width: 2em }
"""
SCRIPT = os.path.join(os.path.dirname(os.path.realpath(__file__)), "picture.js")
BAR_WIDTH = 420
MOST_LETTERS, LEGEND = 140, 64  # of a line of the title, and how low the legend stands
ARROWS = {Tie.NEEDS: "#2c4a68", Tie.WISHES: "#5f8f5a", Tie.ORDER: "#9aa6b2", Tie.WAITED: "#c62828", Tie.REQUISITE: "#c62828",
          Tie.TRIGGERS: "#8a5aa8"}
A_GREAT_MANY = 60  # lines: where a picture has more, all are paler
BEND = 26  # between the lines of two units in a ring
MOST_WISHES = 12  # of one unit: where it has more, they are paler still

DOT_STYLES = {
    Tie.NEEDS: 'color="#2c4a68"', Tie.WISHES: 'color="#5f8f5a", style=dashed', Tie.ORDER: 'color="#9aa6b2", style=dotted',
    Tie.TRIGGERS: 'color="#8a5aa8", style=dashed', Tie.CONFLICT: "color=red, dir=none", Tie.WAITED: "color=red", Tie.REQUISITE: "color=red",
}


def class_of(tie):
    """The class of a tie's lines, for the style."""
    return tie.name.lower()


def curve(one, other):
    """The path from one box down to another."""
    (x1, _), (x2, _) = one.middle(), other.middle()
    if abs(one.y - other.y) < HEIGHT:
        return beside(one, other)
    y1, y2 = (one.y + HEIGHT, other.y) if one.y < other.y else (one.y, other.y + HEIGHT)
    reach = (y2 - y1) / 2
    return f"M{x1:.1f} {y1:.1f} C{x1:.1f} {y1 + reach:.1f} {x2:.1f} {y2 - reach:.1f} {x2:.1f} {y2:.1f}"


def beside(one, other):
    """The path between two boxes beside each other, round above them."""
    (x1, _), (x2, _) = one.middle(), other.middle()
    out = min(one.y, other.y) - min(14 + abs(x2 - x1) / 8, 60)
    return f"M{x1:.1f} {one.y:.1f} C{x1:.1f} {out:.1f} {x2:.1f} {out:.1f} {x2:.1f} {other.y:.1f}"


def across(one, other, bend):
    """The path from the edge of a box to the edge of another, bent to its left by so much."""
    (x1, y1), (x2, y2) = edge(one, other), edge(other, one)
    length = max(math.hypot(x2 - x1, y2 - y1), 1)
    x, y = (x1 + x2) / 2 + bend * (y2 - y1) / length, (y1 + y2) / 2 - bend * (x2 - x1) / length
    return f"M{x1:.1f} {y1:.1f} Q{x:.1f} {y:.1f} {x2:.1f} {y2:.1f}"


def edge(one, other):
    """Where the line between the middles of two boxes leaves the first."""
    (x1, y1), (x2, y2) = one.middle(), other.middle()
    wide, tall = abs(x2 - x1), abs(y2 - y1)
    part = min((one.width / 2 + 2) / wide if wide else 1, (HEIGHT / 2 + 2) / tall if tall else 1, 1)
    return x1 + (x2 - x1) * part, y1 + (y2 - y1) * part


def arrow(tie):
    """The head of an arrow."""
    return (f'<marker id="{class_of(tie)}" viewBox="0 0 8 8" refX="8" refY="4" markerWidth="7" markerHeight="7" orient="auto" '
            f'markerUnits="userSpaceOnUse"><path d="M0 0 L8 4 L0 8 z" style="fill:{ARROWS[tie]};stroke:none"/></marker>')


def path_of(line, picture, layout):
    """The path of a line. In a ring the order goes straight, but for that of two units, which goes both ways; the rest is beside it."""
    ends = layout.spots[line.source], layout.spots[line.target]
    if picture.shape is not Shape.RING:
        return curve(*ends)
    bends = (len(picture.boxes) == 2) + (line.tie is not Tie.WAITED)
    return across(*ends, BEND * bends)


def head_of(tie):
    """The arrow's head at the end of a line, if it has one."""
    return f' marker-end="url(#{class_of(tie)})"' if tie in ARROWS else ""


def lines_of(picture, layout):
    """All lines that are drawn between the boxes."""
    wishes = Counter(it.target for it in picture.drawn if it.tie is Tie.WISHES)
    for it in picture.drawn:
        pale = " pale" if it.tie is Tie.WISHES and wishes[it.target] > MOST_WISHES else ""
        ends = f'data-from="{escape(it.source)}" data-to="{escape(it.target)}"'
        yield f'<path class="{class_of(it.tie)}{pale}" {ends} d="{path_of(it, picture, layout)}"{head_of(it.tie)}/>'


def hint(box, lines):
    """What a unit's hint says: what is said of it by all lines, those too that aren't drawn."""
    rows = {}
    for line in lines:
        rows.setdefault(line.tie.value, []).append(line.said()[1])
    return "\n".join([box.name, *[f"{tie}: {' '.join(names)}" for tie, names in rows.items()]])


def box_of(box, spot, lines):
    """A unit's box with its name, and its lines as a hint."""
    x, y = spot.middle()
    return (f'<g class="{box.role.value}" data-unit="{escape(box.name)}"><title>{escape(hint(box, lines))}</title>'
            f'<rect class="box" x="{spot.x:.1f}" y="{spot.y:.1f}" width="{spot.width:.1f}" height="{HEIGHT}" rx="4"/>'
            f'<text x="{x:.1f}" y="{y + 4:.1f}" text-anchor="middle">{escape(box.name)}</text></g>')


def title(words):
    """The title, on at most two lines."""
    lines = textwrap.wrap(words, MOST_LETTERS, max_lines=2, placeholder=" ..")
    yield from (f'<text class="title" x="{MARGIN}" y="{24 + 19 * at}">{escape(line)}</text>' for at, line in enumerate(lines))


def legend(ties):
    """A sample of each sort of line, with what it says."""
    x = MARGIN
    for tie in ties:
        yield (f'<path class="{class_of(tie)}" d="M{x} {LEGEND} L{x + 34} {LEGEND}"{head_of(tie)}/>'
               f'<text class="legend" x="{x + 40}" y="{LEGEND + 4}">{tie.value}</text>')
        x += legend_width([tie])


def legend_width(ties):
    """How wide the legend of ties is."""
    return sum(60 + 7 * len(it.value) for it in ties)


def bands(picture, layout):
    """What lies behind each row, with its number."""
    if picture.shape is not Shape.ROWS:
        return
    for row, (top, bottom) in layout.rows.items():
        yield (f'<rect class="band" x="{MARGIN / 2:.1f}" y="{top:.1f}" width="{layout.width - MARGIN:.1f}" height="{bottom - top:.1f}" rx="6"/>'
               f'<text class="row" x="{MARGIN / 2 + 6:.1f}" y="{top + 20:.1f}">{row or "stops"}</text>')


def bar(wide):
    """What a picture is searched and zoomed with."""
    words = ('<input id="search" placeholder="search: / and Enter"/> <span id="told"></span> <button id="less">-</button> '
             '<button id="more">+</button> <button id="fit">fit</button>')
    left, top = max(wide - BAR_WIDTH, 0), LEGEND - 18
    return (f'<g id="bar" data-wide="{BAR_WIDTH}" data-top="{top}" transform="translate({left:.0f} {top})">'
            f'<foreignObject x="0" y="0" width="{BAR_WIDTH}" height="34"><div xmlns="http://www.w3.org/1999/xhtml">{words}</div></foreignObject></g>')


def script():
    """The script of a picture that is searched."""
    with open(SCRIPT, encoding="utf-8") as file:
        return f"<script>//<![CDATA[\n{file.read()}//]]></script>"


def svg(picture, is_plain=False):
    """The picture as SVG, with what makes it searchable if it isn't to be plain."""
    layout = layout_of(picture)
    ties = [it for it in Tie if any(line.tie is it for line in picture.drawn)]
    beside = legend_width(ties) + (0 if is_plain else BAR_WIDTH)
    wide = max(layout.width, 2 * MARGIN + 9.4 * min(len(picture.title), MOST_LETTERS), 2 * MARGIN + beside)
    size = f'width="{wide:.0f}" height="{layout.height:.0f}"'
    style = STYLE if is_plain else STYLE + LIVE_STYLE
    parts = [f'<svg xmlns="http://www.w3.org/2000/svg" {size} viewBox="0 0 {wide:.0f} {layout.height:.0f}"><style>{style}</style>',
             f'<defs>{"".join(arrow(it) for it in ties if it in ARROWS)}</defs><rect width="100%" height="100%" fill="#ffffff"/>',
             *title(picture.title), *legend(ties), *bands(picture, layout)]
    parts.append(f'<g class="{"many" if len(picture.drawn) > A_GREAT_MANY else "few"}">')
    parts += [*lines_of(picture, layout), "</g>"]
    of_unit = {box.name: [] for box in picture.boxes}
    for line in picture.lines:
        of_unit[line.said()[0]].append(line)
    parts += [box_of(it, layout.spots[it.name], of_unit[it.name]) for it in picture.boxes]
    return "\n".join([*parts, *([] if is_plain else [bar(wide), script()]), "</svg>", ""])


def tooltip(line):
    """What a line says, in words."""
    unit, other = line.said()
    return f"{unit} {line.tie.value} {other}"


def quoted(text):
    """A text as DOT quotes it."""
    return '"' + text.replace("\\", "\\\\").replace('"', '\\"') + '"'


def dot(picture):
    """The picture as DOT text."""
    colours = {Role.STOPS: ", color=red, fontcolor=red", Role.FAULTY: ", color=red, fontcolor=red", Role.ASKED: ", penwidth=2"}
    lines = ["digraph plan {", f"  label={quoted(picture.title)};", "  rankdir=TB;", "  node [shape=box, fontname=monospace];"]
    for row in sorted({it.row for it in picture.boxes}):
        names = [it for it in picture.boxes if it.row == row]
        lines += [f"  {quoted(it.name)} [label={quoted(it.name)}{colours.get(it.role, '')}];" for it in names]
        if picture.shape is not Shape.RING:
            lines.append("  { rank=same; " + " ".join(f"{quoted(it.name)};" for it in names) + " }")
    for it in picture.drawn:
        lines.append(f"  {quoted(it.source)} -> {quoted(it.target)} [{DOT_STYLES[it.tie]}, tooltip={quoted(tooltip(it))}];")
    return "\n".join([*lines, "}", ""])
