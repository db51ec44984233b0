"""Shapes of an SVG picture, as text."""
from xml.sax.saxutils import escape

FONT = "monospace"


def text(left, top, words, size=13, weight="normal", colour="#222", anchor="start", has_edge=False):
    """Words; with an edge in the colour of the ground, which covers what they stand on."""
    edge = ' paint-order="stroke" stroke="#fff" stroke-width="4"' * has_edge
    return (f'<text x="{left:g}" y="{top:g}" font-size="{size}" font-weight="{weight}" fill="{colour}"'
            + f' text-anchor="{anchor}"' * (anchor != "start") + f"{edge}>{escape(words)}</text>")


def rectangle(left, top, width, height, fill, line="#888", radius=0, title=""):
    round_ = f' rx="{radius}"' if radius else ""
    line = f' stroke="{line}"' if line else ""
    shape = f'<rect x="{left:g}" y="{top:g}" width="{width:g}" height="{height:g}"{round_} fill="{fill}"{line}'
    return f"{shape}><title>{escape(title)}</title></rect>" if title else f"{shape}/>"


def path(points, line="#345", marker="", dashes=""):
    """A line through points."""
    words = "M " + " L ".join(f"{x:g} {y:g}" for x, y in points)
    marker = f' marker-end="url(#{marker})"' if marker else ""
    dashes = f' stroke-dasharray="{dashes}"' if dashes else ""
    return f'<path d="{words}" stroke="{line}" fill="none"{dashes}{marker}/>'


ARROW = ('<defs><marker id="head" markerWidth="8" markerHeight="8" refX="6" refY="3" orient="auto">'
         '<path d="M 0 0 L 6 3 L 0 6 z" fill="#345"/></marker></defs>')


def document(width, height, shapes):
    """The whole picture."""
    return "\n".join([
        f'<svg xmlns="http://www.w3.org/2000/svg" width="{width:g}" height="{height:g}" '
        f'viewBox="0 0 {width:g} {height:g}" font-family="{FONT}">',
        ARROW, f'<rect width="{width:g}" height="{height:g}" fill="#fff"/>', *shapes, "</svg>", ""])
