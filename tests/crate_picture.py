"""The layers of crates.txt: as a list, as text, and as the picture docs/architecture.svg."""
import os

from repository import ROOT, all_below

WIDTH, LEFT, BAND, BOX, HIGH = 1200, 120, 74, 132, 30
COLOURS = "#dbe7f3 #e3efdc #f6ead2 #f1dfe8 #e2e2f4 #dff0ee #f5e1d6 #ebe8dc #dfe9e4 #eeeeee".split()
STYLE = ("text{font:12px monospace}.layer{font:bold 12px sans-serif}rect{stroke:#777}.band{stroke:none}"
         "path{fill:none;stroke:#55606e;stroke-width:1;opacity:.55}")


def layers():
    """Returns the layers, lowest first, each as its name and its crates: in crates.txt a layer's name is the comment above its crates."""
    found, heading = [], ""
    with open(os.path.join(ROOT, "crates.txt"), encoding="utf-8") as lines:
        for line in lines:
            if line.startswith("#"):
                heading = line[1:].strip()
            elif ":" in line:
                if heading:
                    found.append((heading, []))
                    heading = ""
                found[-1][1].append(line.split(":")[0])
            else:
                heading = ""
    return found


def nearest(name, uses):
    """Returns the crates that a crate uses and that no other of those that it uses stands on."""
    further = set().union(*[all_below(it, uses) for it in uses[name]])
    return [it for it in uses[name] if it not in further]


def text_of(found):
    """Returns the layers as text, the highest first."""
    wide = max(len(name) for name, _ in found)
    return "".join(f"{name:{wide}}  {'  '.join(crates)}\n" for name, crates in reversed(found))


def curve(start, end):
    """Returns the line from a crate's box to that of one on which it stands: down, or in an arc above both where they share a band."""
    (x1, y1), (x2, y2) = start, end
    if y1 == y2:
        top = y1 - 8 - abs(x1 - x2) / 25
        return f"M{x1} {y1}C{x1} {top:g} {x2} {top:g} {x2} {y2}"
    middle = (y1 + HIGH + y2) / 2
    return f"M{x1} {y1 + HIGH}C{x1} {middle:g} {x2} {middle:g} {x2} {y2}"


def picture_of(found, uses):
    """Returns the picture: a band for each layer, the highest first, a box for each crate, a line to each on which it stands directly."""
    places = {}
    for row, (_, crates) in enumerate(reversed(found)):
        step = (WIDTH - LEFT) / len(crates)
        for column, name in enumerate(crates):
            places[name] = (round(LEFT + step * (column + 0.5)), row * BAND + 30)
    high = len(found) * BAND
    text = [f'<svg xmlns="http://www.w3.org/2000/svg" viewBox="0 0 {WIDTH} {high}" width="{WIDTH}" height="{high}">', f"<style>{STYLE}</style>"]
    for row, (name, _) in enumerate(reversed(found)):
        text.append(f'<rect class="band" x="0" y="{row * BAND}" width="{WIDTH}" height="{BAND}" fill="{COLOURS[row % len(COLOURS)]}"/>')
        text.append(f'<text class="layer" x="8" y="{row * BAND + 50}">{name}</text>')
    for name in uses:
        text += [f'<path d="{curve(places[name], places[it])}"/>' for it in nearest(name, uses)]
    for name, (x, y) in places.items():
        text.append(f'<g><title>{name} uses {", ".join(uses[name]) or "none"}</title>'
                    f'<rect x="{x - BOX // 2}" y="{y}" width="{BOX}" height="{HIGH}" rx="4" fill="#fff"/>'
                    f'<text x="{x}" y="{y + 19}" text-anchor="middle">{name}</text></g>')
    return "\n".join(text + ["</svg>"]) + "\n"
