"""The picture of corr-page: polygons, axes and marks as corr-plot draws them, and where payoffs lie on it, for the script."""
from collections import namedtuple
from fractions import Fraction
from math import ceil, floor

from corr_drawing import number, tag, text
from corr_labels import Labels
from corr_layout import Frame, Plane, exact_text, fitted, tick_text, width_of
from corr_picture import SMALLEST, contents, corner_labels, grid, groups, sizes_of

SIZE = 15  # of texts, in pixels where the picture has its own width
AROUND = 52  # from the polygons to the frame, at least: room for points that aren't reached
RIGHT = 20  # right of the frame
GRID = 4  # how many pixels two places of the point are apart, at least

Scene = namedtuple("Scene", "svg axes")
# Where an axis' payoffs lie on the picture, and the grid on it: its lowest and its highest place, in steps.
AxisPlace = namedtuple("AxisPlace", "least start unit step lowest highest")


def scene(blocks, names, description):
    """The picture of these blocks, with the description for readers who can't see it."""
    drawn = groups(blocks)
    points = list(dict.fromkeys(point for _, corners in drawn for point in corners))
    plane = Plane(points, False)
    placed = labels_of(plane, drawn, points)
    room = -AROUND, -plane.height - AROUND, plane.width + AROUND, AROUND
    frame = Frame(plane, plane.around([room, *(label.box for label in placed)]), 0, SIZE)
    widest = max(width_of(tick_text(value), SIZE) for value in frame.ticks[1])
    frame.put(30 + widest, 8)
    drawing = [*grid(frame, sizes_of(SIZE)), *axis_titles(frame, names), *contents(frame, drawn, None)]
    below = element("g", drawing, role="img", aria_label=description)
    above = element("g", corner_labels(frame, placed), aria_hidden="true")
    return Scene(document(below, above, frame), [axis_place(frame, k) for k in (0, 1)])


def element(kind, parts, **attributes):
    """An element with others in it."""
    opening = tag(kind, **attributes)[: -len("/>")]
    return "\n".join([f"{opening}>", *parts, f"</{kind}>"])


def labels_of(plane, drawn, points):
    """The exact payoffs at the corners, or no labels where there is no room: the table of corners has them."""
    labels = Labels(plane, [list(corners) for _, corners in drawn], points, [], [], SIZE)
    texts = [exact_text(point) for point in points]
    return labels.near(texts) or [] if min(labels.sizes(texts)) >= SMALLEST * SIZE else []


def axis_place(frame, k):
    """The place of an axis, with a grid of round numbers that is about as fine as a hand can move."""
    axis = frame.axes[k]
    step = axis.step(max(Fraction(axis.length) / GRID, 2))
    start = frame.at(frame.plane.least)[k]
    unit = axis.unit if k == 0 else -axis.unit
    return AxisPlace(frame.plane.least[k], start, unit, step, ceil(axis.low / step), floor(axis.high / step))


# The frame and what lies in it


def axis_titles(frame, names):
    middle = (frame.left + frame.right) / 2, (frame.top + frame.bottom) / 2
    across, up = (fitted(f"expected payoff of {name}", SIZE, room) for name, room in zip(names, (frame.width, frame.height)))
    yield text("axis", across, middle[0], frame.bottom + 45, SIZE)
    yield text("axis", up, 15, middle[1], SIZE, transform=f"rotate(-90 15 {number(middle[1])})")


# What the script moves


def moved(frame):
    """The side that bounds a point, lines to the corners of a mixture, and, to be laid on all else, the point itself."""
    box = {"x": frame.left, "y": frame.top, "width": frame.width, "height": frame.height}
    lines = [tag("line", id="side", **{"class": "script"}), tag("g", "", id="ties")]
    discs = [tag("circle", **{"class": name}, r=radius) for name, radius in (("reach", 22), ("focus", 13), ("disc", 7.5))]
    point = {"id": "point", "class": "script", "tabindex": "0", "role": "slider", "aria_roledescription": "point on the picture"}
    clip = element("clipPath", [tag("rect", **box)], id="within")
    area = tag("rect", id="area", fill="#ffffff", fill_opacity=0, **box)
    return f"{clip}\n{element('g', lines, clip_path='url(#within)')}", f"{area}\n{element('g', discs, **point)}"


def document(below, above, frame):
    lines, point = moved(frame)
    width, height = number(frame.right + RIGHT), number(frame.bottom + 52)
    return element("svg", [below, lines, above, point], viewBox=f"0 0 {width} {height}", width=width, height=height)
