"""Shapes for the pictures: each answers a line of SVG. Figures are written with at most one decimal, so that the same
picture is the same bytes on every machine."""
from html import escape

INK, SOFT, FAINT = "#1f2933", "#52606d", "#9aa5b1"
FONT = "DejaVu Sans, Verdana, Helvetica, sans-serif"


def figure(x):
    return f"{round(x, 1):g}"


def figures(*xs):
    return " ".join(figure(x) for x in xs)


def text(x, y, words, size=12, anchor="middle", colour=INK, weight="normal", style="normal"):
    return (
        f'<text x="{figure(x)}" y="{figure(y)}" font-size="{size}" text-anchor="{anchor}" fill="{colour}"'
        f' font-weight="{weight}" font-style="{style}">{escape(words)}</text>'
    )


def box(x, y, width, height, fill="#ffffff", stroke=INK, round_by=5, dashes="", thick=1.3):
    dashed = f' stroke-dasharray="{dashes}"' if dashes else ""
    return (
        f'<rect x="{figure(x)}" y="{figure(y)}" width="{figure(width)}" height="{figure(height)}" rx="{round_by}"'
        f' fill="{fill}" stroke="{stroke}" stroke-width="{thick}"{dashed}/>'
    )


def path(shape, colour=INK, dashes="", arrow=True, thick=1.4):
    dashed = f' stroke-dasharray="{dashes}"' if dashes else ""
    marker = f' marker-end="url(#{MARKERS[colour]})"' if arrow else ""
    return f'<path d="{shape}" fill="none" stroke="{colour}" stroke-width="{thick}"{dashed}{marker}/>'


def line(x1, y1, x2, y2, **how):
    return path(f"M {figures(x1, y1)} L {figures(x2, y2)}", **how)


def diamond(x, y, colour, half=6):
    corners = figures(x, y - half, x + half, y, x, y + half, x - half, y)
    return f'<polygon points="{corners}" fill="#ffffff" stroke="{colour}" stroke-width="1.6"/>'


CUT = "#b4540a"
MARKERS = {INK: "ink", CUT: "cut", FAINT: "faint", SOFT: "soft"}


def picture(width, height, title, shapes):
    """The whole file."""
    markers = [
        f'<marker id="{name}" viewBox="0 0 10 10" refX="9" refY="5" markerWidth="7" markerHeight="7" orient="auto">'
        f'<path d="M 0 0.8 L 10 5 L 0 9.2 z" fill="{colour}"/></marker>'
        for colour, name in MARKERS.items()
    ]
    head = (
        f'<svg xmlns="http://www.w3.org/2000/svg" viewBox="0 0 {figures(width, height)}" width="{figure(width)}"'
        f' height="{figure(height)}" font-family="{FONT}" role="img" aria-label="{escape(title)}">'
    )
    paper = f'<rect width="{figure(width)}" height="{figure(height)}" fill="#ffffff"/>'
    return "\n".join([head, f"<title>{escape(title)}</title>", "<defs>", *markers, "</defs>", paper, *shapes, "</svg>", ""])
