"""The elements of an SVG picture of polygons: texts, lines, and how each notion's shapes and marks look."""
from collections import namedtuple
from xml.sax.saxutils import escape, quoteattr

INK, FAINT = "#111111", "#d4d4d4"
# Fill, line, the line's width and its dashes. The fills go from dark to light, so that they are told apart without colours.
STYLES = {
    "efce": ("#6c9bc9", "#10263b", 3, None),
    "efcce": ("#b5d0e8", "#1f4468", 2, "8 4"),
    "nfcce": ("#eaf1f8", "#4f6272", 1.7, "2 3.5"),
    "feasible": ("#f7f6f0", "#8a8a80", 1, None),
}
CROSS = 8.5  # half the width of a Nash equilibrium's mark, which shows round all other marks
SWATCH = 34  # the width of a shape in the legend

# Of texts: how they compare with the usual ones, of axes and legend, of the title, of labels; and from one line to the next.
Sizes = namedtuple("Sizes", "factor text title label line")


def number(value):
    if isinstance(value, str):
        return value
    text = f"{value:.2f}".rstrip("0").rstrip(".")
    return "0" if text == "-0" else text


def tag(kind, content=None, **attributes):
    """An element with a text in it, or none. An attribute of None is left out."""
    words = "".join(f" {name.replace('_', '-')}={quoteattr(number(value))}" for name, value in attributes.items() if value is not None)
    return f"<{kind}{words}/>" if content is None else f"<{kind}{words}>{escape(content)}</{kind}>"


def text(role, content, x, y, size, anchor="middle", **more):
    """A text. Its role is its class, so that a style sheet can name it."""
    return tag("text", content, **{"class": role}, x=x, y=y, font_size=size, text_anchor=anchor, fill=INK, **more)


def line(x1, y1, x2, y2, stroke=FAINT):
    return tag("line", x1=x1, y1=y1, x2=x2, y2=y2, stroke=stroke, stroke_width=1)


def places(points):
    return " ".join(f"{number(x)},{number(y)}" for x, y in points)


def shape(look, corners):
    """A polygon, or the line between two corners. One corner alone is shown by its mark."""
    fill, ink, width, dashes = STYLES[look]
    kind = "polygon" if len(corners) > 2 else "polyline"
    width += 0 if len(corners) > 2 or look == "feasible" else 2
    more = {"stroke": ink, "stroke_width": width, "stroke_dasharray": dashes, "stroke_linejoin": "round"}
    return tag(kind, points=places(corners), fill=fill, **more)


def mark(look, x, y):
    """A disc, a square that fits round it, or a diamond that fits round both."""
    ink = STYLES[look][1]
    if look == "efce":
        return tag("circle", cx=x, cy=y, r=4.5, fill=ink)
    if look == "efcce":
        return tag("rect", x=x - 6, y=y - 6, width=12, height=12, fill="none", stroke=ink, stroke_width=1.7)
    corners = [(x, y - 10.5), (x + 10.5, y), (x, y + 10.5), (x - 10.5, y)]
    return tag("polygon", points=places(corners), fill="none", stroke=ink, stroke_width=1.7)


def cross(x, y):
    """A Nash equilibrium's mark, with a white rim so that it shows on the other marks."""
    arms = f"M{number(x - CROSS)} {number(y - CROSS)}l{2 * CROSS} {2 * CROSS}m0 {-2 * CROSS}l{-2 * CROSS} {2 * CROSS}"
    for ink, width in (("#ffffff", 5), (INK, 2.2)):
        yield tag("path", d=arms, fill="none", stroke=ink, stroke_width=width)


def swatch(look, corners, x, y):
    """How polygons, lines or points of this look are drawn, in the legend."""
    if look == "nash":
        yield from cross(x + SWATCH / 2, y)
        return
    fill, ink, width, dashes = STYLES[look]
    more = {"stroke": ink, "stroke_dasharray": dashes}
    if corners == 2:
        yield tag("line", x1=x, y1=y, x2=x + SWATCH, y2=y, stroke_width=width if look == "feasible" else width + 2, **more)
    if corners > 2:
        yield tag("rect", x=x, y=y - 8.5, width=SWATCH, height=17, fill=fill, stroke_width=width, **more)
    if look != "feasible":
        yield mark(look, x + (54 if corners > 1 else SWATCH / 2), y)
