"""A place for each corner's label: near the corner where there is room, else in columns to both sides, and never over another thing."""
from collections import namedtuple
from itertools import product
from math import atan2, cos, hypot, pi, sin, sqrt

from corr_layout import width_of

CLEAR = 12  # kept free around each corner's mark
REACHES = 13, 22, 34, 50, 72  # from a corner to its label
TURNS = 24  # directions that are tried
APART = 3  # between labels
ATTEMPTS = 8  # orders in which labels are laid, from each order to begin with
WIDEST = 22  # a label that would be wider, in its size, is set smaller: a picture can be enlarged, and a label is exact
COLUMN = 46  # from the polygons to the columns of labels
ON_EDGE, ON_THIN = 4, 1.5  # how bad a label is that lies on an edge of a polygon, or of the feasible payoffs

Label = namedtuple("Label", "text size box leader")  # the leader is a line from the corner to the label, or None
Choice = namedtuple("Choice", "cost box leader")


class Labels:
    """Places for labels of points. The polygons come greatest first; a thin shape, the hull, and marks of others are drawn besides."""

    def __init__(self, plane, polygons, points, hull, others, size):
        self.points = [plane.at(point) for point in points]
        self.marks = list(dict.fromkeys(self.points + [plane.at(point) for point in others]))
        self.edges, self.thin = _edges(plane, polygons), _edges(plane, [hull])
        self.outer = [plane.at(point) for point in polygons[0]]
        self.middle = tuple(sum(place[k] for place in self.outer) / len(self.outer) for k in (0, 1))
        self.width, self.size = plane.width, size

    def sizes(self, texts):
        return [min(self.size, WIDEST * self.size / max(width_of(text, 1), 1)) for text in texts]

    def near(self, texts):
        """A label near each point, none over another or over a mark, or None. The best of some orders in which they are laid is taken."""
        sizes = self.sizes(texts)
        widths = [width_of(text, size) for text, size in zip(texts, sizes)]
        choices = [self._choices(k, width, size) for k, (width, size) in enumerate(zip(widths, sizes))]
        if not all(choices):
            return None
        ranks = (lambda k: len(choices[k]), lambda k: -widths[k], lambda k: self.points[k], lambda k: self.points[k][::-1])
        tried = [_laid(choices, sorted(range(len(texts)), key=rank)) for rank in ranks]
        found = [laid for laid in tried if laid is not None]
        if not found:
            return None
        laid = min(found, key=lambda each: sum(choice.cost for choice in each.values()))
        return [Label(text, size, laid[k].box, laid[k].leader) for k, (text, size) in enumerate(zip(texts, sizes))]

    def _choices(self, number, width, height):
        """The places for a label at which it covers no mark, and not the shape of which it labels an outer corner; the best first."""
        place = self.points[number]
        outward = self._outward(*place)
        found = []
        for reach, turn in product(REACHES, range(TURNS)):
            direction = turn * 2 * pi / TURNS
            box = _box_beside(*place, direction, reach, width, height)
            if not any(_is_near(box, mark) for mark in self.marks) and not (place in self.outer and self._covers_shape(box)):
                leader = (place, _nearest(box, *place)) if reach > REACHES[0] else None
                cost = 1 - cos(direction - outward) + (reach - REACHES[0]) / 6 + self._cost(box) + self._cost_of_leader(place, leader)
                found.append(Choice(cost, box, leader))
        return sorted(found, key=lambda choice: choice.cost)

    def _covers_shape(self, box):
        """Whether a box lies on the greatest polygon, in part or as a whole."""
        middle = (box[0] + box[2]) / 2, (box[1] + box[3]) / 2
        return _is_inside(self.outer, middle) or any(_crosses(box, edge) for edge in zip(self.outer, self.outer[1:] + self.outer[:1]))

    def _outward(self, x, y):
        """The direction away from the middle of the greatest polygon."""
        across, up = x - self.middle[0], self.middle[1] - y
        return atan2(up, across) if hypot(across, up) > 1 else pi / 4

    def _cost(self, box):
        left, top, right, bottom = box
        on_edges = sum(_crosses((left - 4, top - 2, right + 4, bottom + 2), edge) for edge in self.edges)
        return ON_EDGE * on_edges + ON_THIN * sum(_crosses(box, edge) for edge in self.thin)

    def _cost_of_leader(self, place, leader):
        """A leader that goes over another corner's mark leads the eye astray."""
        if not leader:
            return 0
        others = (mark for mark in self.marks if mark != place)
        return ON_EDGE * sum(_crosses((x - CLEAR / 2, y - CLEAR / 2, x + CLEAR / 2, y + CLEAR / 2), leader) for x, y in others)

    def in_columns(self, texts):
        """The labels in two columns, on the left and on the right of the polygons, each led to by a line."""
        sizes = self.sizes(texts)
        order = sorted(range(len(texts)), key=lambda k: self.points[k])
        half = len(order) // 2
        left, right = -COLUMN, self.width + COLUMN
        found = {}
        for side, numbers in ((left, order[:half]), (right, order[half:])):
            found.update(self._column(texts, sizes, sorted(numbers, key=lambda k: self.points[k][1]), side))
        return [found[k] for k in range(len(texts))]

    def _column(self, texts, sizes, numbers, side):
        """The labels of one column, from the top, as near to their corners' heights as they can be."""
        for k, y in zip(numbers, _spread([self.points[k][1] for k in numbers], self.size + APART + 1)):
            width = width_of(texts[k], sizes[k])
            left = side if side > 0 else side - width
            box = left, y - sizes[k] / 2, left + width, y + sizes[k] / 2
            yield k, Label(texts[k], sizes[k], box, (self.points[k], (side, y)))


def _spread(heights, apart):
    """Heights at least so far from one another, in the same order and with the same mean."""
    found = []
    for height in heights:
        found.append(max([height] + [before + apart for before in found[-1:]]))
    shift = (sum(heights) - sum(found)) / max(len(found), 1)
    return [height + shift for height in found]


def _edges(plane, polygons):
    shapes = [[plane.at(point) for point in polygon] for polygon in polygons]
    return sorted({tuple(sorted(edge)) for shape in shapes for edge in zip(shape, shape[1:] + shape[:1])})


def _laid(choices, order):
    """A choice for each label, or None. A label that finds no place comes first in the next attempt."""
    for _ in range(ATTEMPTS):
        laid, stuck = _lay(choices, order)
        if stuck is None:
            return laid
        order.remove(stuck)
        order.insert(0, stuck)
    return None


def _lay(choices, order):
    """The first choice of each label, in this order, that covers no earlier one; or the number of the label that has none."""
    laid = {}
    for k in order:
        choice = next((choice for choice in choices[k] if not any(_disturb(choice, other) for other in laid.values())), None)
        if choice is None:
            return laid, k
        laid[k] = choice
    return laid, None


def _disturb(one, other):
    """Whether a label lies over another, or over the line that leads to it, or whether two such lines cross."""
    if _meet(one.box, other.box) or (one.leader and other.leader and _cut(one.leader, other.leader)):
        return True
    return any(choice.leader and _crosses(beside.box, choice.leader) for choice, beside in ((one, other), (other, one)))


def _box_beside(x, y, direction, reach, width, height):
    """The box of this size that touches the square round a place in a direction; corners of the square take a box at its corner."""
    across, up = (max(-1.0, min(1.0, sqrt(2) * part)) for part in (cos(direction), sin(direction)))
    left, top = x + across * (reach + width / 2) - width / 2, y - up * (reach + height / 2) - height / 2
    return left, top, left + width, top + height


def _nearest(box, x, y):
    """The place of the box that is nearest to a place outside."""
    return min(max(x, box[0]), box[2]), min(max(y, box[1]), box[3])


def _is_near(box, mark):
    return box[0] - CLEAR < mark[0] < box[2] + CLEAR and box[1] - CLEAR < mark[1] < box[3] + CLEAR


def _meet(one, two):
    return one[0] < two[2] + APART and two[0] < one[2] + APART and one[1] < two[3] + APART and two[1] < one[3] + APART


def _is_inside(shape, place):
    """Whether a place lies within a shape whose corners go counter-clockwise as one sees them."""
    return len(shape) > 2 and all(_side(start, end, place) < 0 for start, end in zip(shape, shape[1:] + shape[:1]))


def _cut(one, other):
    """Whether two lines between places cross."""
    return all(_side(*line, start) * _side(*line, end) < 0 for line, (start, end) in ((one, other), (other, one)))


def _side(start, end, place):
    return (end[0] - start[0]) * (place[1] - start[1]) - (end[1] - start[1]) * (place[0] - start[0])


def _crosses(box, edge):
    """Whether a line between two places goes through a box."""
    (x0, y0), (x1, y1) = edge
    if max(x0, x1) < box[0] or min(x0, x1) > box[2] or max(y0, y1) < box[1] or min(y0, y1) > box[3]:
        return False
    low, high = 0.0, 1.0
    for start, end, least, greatest in ((x0, x1, box[0], box[2]), (y0, y1, box[1], box[3])):
        if start == end:
            if not least < start < greatest:
                return False
            continue
        near, far = sorted(((least - start) / (end - start), (greatest - start) / (end - start)))
        low, high = max(low, near), min(high, far)
    return low < high
