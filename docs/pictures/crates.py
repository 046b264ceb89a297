"""The crates, from crates.txt: each above those that it stands on. Drawn in layers, with the arrows that follow from others
left out. A crate without code, which holds theorems or definitions alone, is drawn with a dashed edge."""
import pathlib, re

from svg import SOFT, box, figures, path, picture, text

ROOT = pathlib.Path(__file__).resolve().parent.parent.parent
WIDE, HIGH, GAP, ROW, MARGIN = 118, 34, 30, 84, 24


def crates():
    """Each crate with those it names that are crates of this repository."""
    rows = [line.split("#")[0].split(":") for line in (ROOT / "crates.txt").read_text().splitlines()]
    named = {row[0].split()[0]: row[1].split() for row in rows if len(row) == 2}
    return {crate: [other for other in others if other in named] for crate, others in named.items()}


def has_code(crate):
    files = (ROOT / "crates" / crate / "src").rglob("*.rt")
    return any(re.search(r"^ *(pub )?(extern \"C\" )?fn ", file.read_text(), re.M) for file in files)


def below(named, crate):
    """All that a crate stands on, itself left out."""
    found = set()
    for other in named[crate]:
        found |= {other} | below(named, other)
    return found


def direct(named, crate):
    """Those it stands on that no other of them stands on."""
    return [other for other in named[crate] if not any(other in below(named, third) for third in named[crate])]


def layers_of(named):
    """The layer of each crate: 0 where it stands on none, else one above the highest that it stands on."""
    layer = {}
    while len(layer) < len(named):
        for crate, others in named.items():
            if crate not in layer and all(other in layer for other in others):
                layer[crate] = 1 + max((layer[other] for other in others), default=-1)
    return layer


def threaded(named):
    """Rows of places, the lowest first, and the arrows between places of neighbouring rows. An arrow that crosses a row has
    a place there, (crate, other, row), so that it keeps clear of the boxes."""
    layer = layers_of(named)
    rows = [[] for _ in range(1 + max(layer.values()))]
    arrows = []
    for crate in named:
        rows[layer[crate]].append(crate)
    for crate in named:
        for other in direct(named, crate):
            upper = crate
            for row in range(layer[crate] - 1, layer[other], -1):
                place = (crate, other, row)
                rows[row].append(place)
                arrows.append((upper, place))
                upper = place
            arrows.append((upper, other))
    return rows, arrows


def wide(place):
    return WIDE if isinstance(place, str) else 10


def ordered(rows, arrows):
    """The rows with as few crossings as a few sweeps find, and where the middle of each place stands."""
    near = {place: [] for row in rows for place in row}
    for upper, lower in arrows:
        near[upper].append(lower)
        near[lower].append(upper)
    middle = {}
    for row in rows:
        for index, place in enumerate(row):
            middle[place] = (index - (len(row) - 1) / 2) * (WIDE + GAP)
    for _ in range(40):
        for row in rows + rows[::-1]:
            wanted = {place: sum(middle[n] for n in near[place]) / len(near[place]) if near[place] else 0 for place in row}
            row.sort(key=lambda place: (round(wanted[place], 3), str(place)))
            spread(row, wanted, middle)
    return middle


def spread(row, wanted, middle):
    """Places of a row as near to where they want to be as their widths allow, the whole row balanced."""
    places = []
    for place in row:
        left = places[-1] + (wide(row[len(places) - 1]) + wide(place)) / 2 + GAP if places else wanted[place]
        places.append(max(left, wanted[place]))
    shift = sum(wanted[place] - at for place, at in zip(row, places)) / len(row)
    for place, at in zip(row, places):
        middle[place] = at + shift


def drawn():
    named = crates()
    rows, arrows = threaded(named)
    middle = ordered(rows, arrows)
    left = min(middle[place] - wide(place) / 2 for row in rows for place in row)
    right = max(middle[place] + wide(place) / 2 for row in rows for place in row)
    width, height = right - left + 2 * MARGIN, ROW * len(rows) + 66
    level = {place: number for number, row in enumerate(rows) for place in row}

    def at(place):
        return middle[place] - left + MARGIN, MARGIN + 6 + ROW * (len(rows) - 1 - level[place])

    shapes = []
    for upper, lower in arrows:
        (x1, y1), (x2, y2) = at(upper), at(lower)
        y1 += HIGH
        if not isinstance(upper, str):
            shapes.append(path(f"M {figures(x1, y1 - HIGH)} L {figures(x1, y1)}", colour=SOFT, arrow=False))
        bend = (y2 - y1) / 2
        curve = f"M {figures(x1, y1)} C {figures(x1, y1 + bend, x2, y2 - bend, x2, y2)}"
        shapes.append(path(curve, colour=SOFT, arrow=isinstance(lower, str)))
    for crate in named:
        x, y = at(crate)
        code = has_code(crate)
        shapes.append(box(x - WIDE / 2, y, WIDE, HIGH, fill="#eef4fb" if code else "#ffffff", dashes="" if code else "5 3"))
        shapes.append(text(x, y + HIGH / 2 + 4.5, crate, size=13, weight="bold"))
    for place, words in enumerate((
        "An arrow leads from a crate to one that it stands on; those that follow from others are left out.",
        "Dashed edge: no code, definitions and theorems alone.",
    )):
        shapes.append(text(MARGIN, height - 34 + 18 * place, words, 11, "start", SOFT))
    return picture(max(width, 640), height, "The crates, each above those that it stands on", shapes)
