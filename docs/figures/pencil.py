"""Shapes and text of an SVG: a figure is a list of them."""

from html import escape

WIDTH = 700
INK, FAINT = "#222222", "#767676"
LIVE, LENT, INACTIVE, PICKED = "#dff0e0", "#dfeafa", "#eeeeee", "#fde7b0"


def picture(height, title, parts):
    """The whole file, on a white ground. The title is its name for readers of screens."""
    head = (f"<svg xmlns='http://www.w3.org/2000/svg' width='{WIDTH}' height='{height}' "
            f"viewBox='0 0 {WIDTH} {height}' role='img' aria-labelledby='title' "
            f"font-family='sans-serif' font-size='12' fill='{INK}'>")
    head_of_arrow = ("<defs><marker id='head' viewBox='0 0 10 10' refX='10' refY='5' markerWidth='8' "
                     f"markerHeight='8' orient='auto'><path d='M0 0L10 5L0 10z' fill='{INK}'/></marker></defs>")
    ground = f"<rect width='{WIDTH}' height='{height}' fill='#ffffff'/>"
    return "\n".join([head, f"<title id='title'>{escape(title)}</title>", head_of_arrow, ground, *parts, "</svg>", ""])


def box(x, y, width, height, fill, dashed=False):
    """A rectangle with its upper left corner there."""
    dashes = " stroke-dasharray='4 3'" if dashed else ""
    return (f"<rect x='{x:g}' y='{y:g}' width='{width:g}' height='{height:g}' rx='4' fill='{fill}' "
            f"stroke='{INK}'{dashes}/>")


def text(x, y, words, anchor="middle", bold=False, size=None, colour=None):
    """A line of text whose baseline is there."""
    marks = f" text-anchor='{anchor}'" if anchor != "start" else ""
    marks += " font-weight='bold'" if bold else ""
    marks += f" font-size='{size}'" if size else ""
    marks += f" fill='{colour}'" if colour else ""
    return f"<text x='{x:g}' y='{y:g}'{marks}>{escape(words)}</text>"


def line(points, dashed=False, arrow=False, colour=INK, width=1):
    """A line through these points, with an arrow at its end if so asked."""
    path = "M" + "L".join(f"{x:g} {y:g}" for x, y in points)
    marks = " stroke-dasharray='4 3'" if dashed else ""
    marks += " marker-end='url(#head)'" if arrow else ""
    marks += f" stroke-width='{width}'" if width != 1 else ""
    return f"<path d='{path}' fill='none' stroke='{colour}'{marks}/>"


def arrow(*points, dashed=False):
    """A line through these points that ends with an arrow."""
    return line(points, dashed=dashed, arrow=True)


def disc(x, y, radius, words, fill="#ffffff"):
    """A circle with a word in it."""
    return (f"<circle cx='{x:g}' cy='{y:g}' r='{radius:g}' fill='{fill}' stroke='{INK}'/>\n"
            + text(x, y + 4, words, size=11))
