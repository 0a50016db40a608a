"""The picture of a report's polygons: a pair of axes, the notions nested, each corner labelled, a legend and a table. The script corr-plot
and the module corr_game draw by it."""
from collections import namedtuple
from textwrap import wrap

from corr_drawing import Sizes, cross, line, mark, number, shape, tag, text
from corr_labels import Labels
from corr_layout import BOLD, Frame, Plane, exact_text, fitted, rounded_text, tick_text, width_of
from corr_legend import Legend, Table
from corr_report import Bad, point_text

FONT = "'DejaVu Sans', Verdana, Helvetica, Arial, sans-serif"
SIZE = 14  # of texts, in pixels, unless another one is asked for; all other sizes follow it
TITLE_LETTERS = 58  # in a line
RIGHT = 34  # right of the frame, at least
SMALLEST = 0.75  # exact labels that would have to be smaller than that become numbers, unless they are asked for

UNTITLED = "Payoffs in correlated equilibrium"  # where no game is there to have a title

# What is asked of a picture: its title and the players' names, and how it is drawn. `labels` and `width` may be None.
Asked = namedtuple("Asked", "title names stretch labels legend width size")


def sizes_of(size):
    factor = size / SIZE
    return Sizes(factor, size, 18 * factor, 15 * factor, 18 * factor)


# What is drawn


def groups(blocks):
    """The notions that have the same corners, together, with these; the greatest polygon first."""
    found = {}
    for block in blocks:
        if block.kind == "found":
            found.setdefault(tuple(corner.point for corner in block.corners), []).append(block.notion)
    return [(notions, points) for points, notions in reversed(list(found.items()))]


def label_texts(kind, points):
    """What stands at the corners."""
    if kind == "number":
        return [str(k) for k in range(len(points))]
    return [exact_text(point) if kind == "exact" else rounded_text(point) for point in points]


def laid_labels(labels, wish, points):
    """How the corners are labelled, and the labels: at the corners in the first way for which there is room, else in columns."""
    if wish == "none":
        return wish, []
    kinds = [wish] if wish else own_kinds(labels, points)
    tried = ((kind, labels.near(label_texts(kind, points))) for kind in kinds)
    in_columns = kinds[0], labels.in_columns(label_texts(kinds[0], points))
    return next((each for each in tried if each[1]), in_columns)


def own_kinds(labels, points):
    """The ways of labelling where none is asked for."""
    smallest = min(labels.sizes(label_texts("exact", points)))
    return ["exact", "number"] if smallest >= SMALLEST * labels.size else ["number"]


# The frame and what lies in it


def axis_lines(name, room, size):
    """Whose payoffs an axis has, in one line or two."""
    whole = f"expected payoff of {name}"
    return [whole] if width_of(whole, size) <= room else ["expected payoff of", fitted(name, size, room)]


def grid(frame, sizes):
    """The frame and a grid at round numbers."""
    yield from (part for value in frame.ticks[0] for part in upright(frame, value, sizes))
    yield from (part for value in frame.ticks[1] for part in level(frame, value, sizes))
    box = {"x": frame.left, "y": frame.top, "width": frame.width, "height": frame.height}
    yield tag("rect", **{"class": "frame"}, fill="none", stroke="#777777", **box)


def upright(frame, value, sizes):
    """A line of the grid at a payoff of the first player, with its number."""
    x, _ = frame.at((value, frame.axes[1].low))
    yield line(x, frame.top, x, frame.bottom + 5)
    yield text("tick", tick_text(value), x, frame.bottom + 6 + 15 * sizes.factor, sizes.text)


def level(frame, value, sizes):
    _, y = frame.at((frame.axes[0].low, value))
    yield line(frame.left - 5, y, frame.right, y)
    yield text("tick", tick_text(value), frame.left - 9, y + 5 * sizes.factor, sizes.text, "end")


def axis_titles(frame, sizes, across, up):
    middle = (frame.left + frame.right) / 2, (frame.top + frame.bottom) / 2
    below = frame.bottom + 6 + 38 * sizes.factor
    yield from (text("axis", words, middle[0], below + k * sizes.line, sizes.text) for k, words in enumerate(across))
    for k, words in enumerate(up):
        x = 5 + 14 * sizes.factor + k * sizes.line
        yield text("axis", words, x, middle[1], sizes.text, transform=f"rotate(-90 {number(x)} {number(middle[1])})")


def corner_labels(frame, placed):
    """The labels, and a thin line to each one that had to lie away."""
    leaders = (label.leader for label in placed if label.leader)
    yield from (line(*frame.moved(*start), *frame.moved(*end), stroke="#555555") for start, end in leaders)
    for label in placed:
        left, top, right, bottom = label.box
        x, y = frame.moved((left + right) / 2, (top + bottom) / 2)
        halo = {"stroke": "#ffffff", "stroke_width": 4, "stroke_linejoin": "round", "paint_order": "stroke"}
        yield text("label", label.text, x, y + 0.35 * label.size, label.size, **halo)


def contents(frame, drawn, payoffs):
    """The shapes and marks, the greatest shape first."""
    if payoffs:
        yield shape("feasible", [frame.at(point) for point in payoffs.hull])
    yield from (shape(notions[0], [frame.at(point) for point in points]) for notions, points in drawn)
    yield from (mark(notions[0], *frame.at(point)) for notions, points in drawn for point in points)
    for point in payoffs.nash if payoffs else ():
        yield from cross(*frame.at(point))


# The whole


def in_words(blocks, payoffs):
    """What the picture shows, for readers who can't see it: the numbers are as in the report."""
    parts = [(block.notion.upper(), [corner.point for corner in block.corners], block.kind) for block in blocks]
    if payoffs:
        parts += [("feasible payoffs", payoffs.hull, ""), ("pure Nash equilibria", payoffs.nash, "none")]
    return "; ".join(f"{name}: {' '.join(map(point_text, points)) or without}" for name, points, without in parts)


def least_width(heads, below, sizes):
    """How wide the frame is at least, for what stands above and below it."""
    return max([BOLD * width_of(head, sizes.title) for head in heads] + [each.width() for each in below], default=0)


def put_frame(plane, placed, least, heads, asked, sizes):
    """The frame in its place, and the titles of both axes."""
    frame = Frame(plane, plane.around([label.box for label in placed]), least, sizes.text)
    titles = [axis_lines(name, room - 8, sizes.text) for name, room in zip(asked.names, (frame.width, frame.height))]
    widest = max(width_of(tick_text(value), sizes.text) for value in frame.ticks[1])
    left = max(16 + 12 * sizes.factor + widest + sizes.line * len(titles[1]), 6 - numbers_across(frame, sizes)[0])
    frame.put(left, 16 + (12 + 24 * len(heads)) * sizes.factor * bool(heads))
    return frame, titles


def numbers_across(frame, sizes):
    """From where to where the first axis' numbers go."""
    ends = [(frame.at((value, frame.plane.least[1]))[0], width_of(tick_text(value), sizes.text) / 2) for value in frame.ticks[0]]
    return min(x - half for x, half in ends), max(x + half for x, half in ends)


def below_frame(frame, titles, below, sizes):
    """The elements of what stands below the frame, and where they end."""
    y = frame.bottom + 6 + 44 * sizes.factor + sizes.line * (len(titles[0]) - 1)
    parts = []
    for each in below:
        y += 10 * sizes.factor
        parts += each.parts(frame.left, y, frame.width)
        y += each.height(frame.width)
    return parts, y + 6


def title_lines(heads, frame, sizes):
    starts = [(frame.left, (32 + 24 * k) * sizes.factor) for k in range(len(heads))]
    return (text("title", head, *start, sizes.title, "start", font_weight="bold") for head, start in zip(heads, starts))


def picture(blocks, payoffs, asked):
    drawn = groups(blocks)
    if not drawn:
        raise Bad("the report has no polygon to draw")
    sizes = sizes_of(asked.size)
    points = list(dict.fromkeys(corner.point for block in blocks for corner in block.corners))
    hull, nash = payoffs or ([], [])
    plane = Plane(points + hull, asked.stretch)
    labels = Labels(plane, [list(corners) for _, corners in drawn], points, hull, nash, sizes.label)
    kind, placed = laid_labels(labels, asked.labels, points)
    heads = wrap(asked.title, TITLE_LETTERS)
    below = [Legend(drawn, blocks, payoffs, sizes)] if asked.legend else []
    below += [Table(points, drawn, blocks, sizes.text)] if kind == "number" else []
    frame, titles = put_frame(plane, placed, least_width(heads, below, sizes), heads, asked, sizes)
    beneath, height = below_frame(frame, titles, below, sizes)
    parts = [
        *title_lines(heads, frame, sizes),
        *grid(frame, sizes),
        *axis_titles(frame, sizes, *titles),
        *contents(frame, drawn, payoffs),
        *corner_labels(frame, placed),
        *beneath,
    ]
    width = max(frame.right + RIGHT, numbers_across(frame, sizes)[1] + 6)
    return document(parts, asked, in_words(blocks, payoffs), width, height)


def document(parts, asked, description, width, height):
    """The SVG file; a width that is asked for scales the whole."""
    scale = asked.width / width if asked.width else 1
    size = {"width": width * scale, "height": height * scale, "viewBox": f"0 0 {number(width)} {number(height)}"}
    opening = tag("svg", "", xmlns="http://www.w3.org/2000/svg", **size, role="img", font_family=FONT)[: -len("</svg>")]
    parts = [tag("desc", description), tag("rect", width=width, height=height, fill="#ffffff"), *parts]
    heads = [tag("title", asked.title)] if asked.title else []
    return "\n".join([opening, *heads, *parts, "</svg>"]) + "\n"
