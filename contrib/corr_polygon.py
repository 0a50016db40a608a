"""The polygon of a notion from its definition: weights of all pairs of plans under which no deviation gains.

The deviations are many. Those that gain at the weights found so far become rows, until none gains.
"""
from collections import namedtuple
from fractions import Fraction
from functools import reduce
from math import gcd

from corr_simplex import Simplex

AXES = ((1, 0), (0, 1), (-1, 0), (0, -1))

# The sides are (direction, number of the corner) once round the corners; `bounds` has a bound for each direction.
Polygon = namedtuple("Polygon", "notion corners sides bounds")
Found = namedtuple("Found", "point total weights")  # a corner: the point in scaled payoffs, weights by the pair's number
# For each pair the payoffs in the direction times the denominator, less the weighted gains, are at most `most`.
Bound = namedtuple("Bound", "denominator most weights")  # weights by deviation


def polygon_of(play, notion, progress):
    """The corners counter-clockwise from player 1's greatest payoff, of ties player 2's greatest."""
    search = _Search(play, notion, progress)
    ends = [search.best(axis) for axis in AXES]
    different = {}
    for start, end in zip(ends, ends[1:] + ends[:1]):
        for corner in [start] + search.between(start, end):
            different.setdefault(corner.point, corner)
    return Polygon(notion, list(different.values()), sides_of(list(different)), search.bounds)


class _Search:
    """Goes from direction to direction; rows and basis are kept."""

    def __init__(self, play, notion, progress):
        self.play, self.notion, self.progress = play, notion, progress
        self.triggers = list(play.triggers(notion))
        self.simplex = Simplex([[1] * len(play.pays[0])], play.pays)
        self.simplex.enter(0)
        self.deviations, self.bounds, self.points = [], {}, set()

    def best(self, direction):
        """The corner that is farthest in a direction, of two such corners the one to the left of the other."""
        order = [direction, (-direction[1], direction[0])]
        self.simplex.climb(order)
        while self._add_rows():
            self._show()
            self.simplex.repair(order)
        self.bounds[direction] = self._bound(direction)
        weights = self.simplex.weights()
        common = reduce(gcd, weights.values())
        weights, total = {pair: weight // common for pair, weight in weights.items()}, self.simplex.denominator // common
        found = Found(tuple(Fraction(paid, total) for paid in self.play.paid(weights)), total, dict(sorted(weights.items())))
        self.points.add(found.point)
        self._show()
        return found

    def _show(self):
        found = f"{len(self.points)} corners and {len(self.bounds)} directions found"
        self.progress(f"{self.notion}: {found}, with {len(self.deviations)} deviations")

    def between(self, start, end):
        """The corners strictly between two corners, counter-clockwise."""
        if start.point == end.point:
            return []
        direction = outward(start.point, end.point)
        corner = self.best(direction)
        if _along(direction, corner.point) == _along(direction, start.point):
            return []
        return self.between(start, corner) + [corner] + self.between(corner, end)

    def _add_rows(self):
        """Adds for each trigger a deviation that gains, and says whether there is one."""
        weights, known = self.simplex.weights(), len(self.deviations)
        for trigger in self.triggers:
            gain, deviation = self.play.best(trigger, weights)
            if gain > 0:
                self.deviations.append(deviation)
                self.simplex.add(self.play.gains(deviation))
        return len(self.deviations) > known

    def _bound(self, direction):
        most, *weights = self.simplex.multipliers(direction)
        common = reduce(gcd, weights, gcd(most, self.simplex.denominator))
        used = {deviation: weight // common for deviation, weight in zip(self.deviations, weights) if weight}
        return Bound(self.simplex.denominator // common, most // common, used)


def fault(play, polygon):
    """What fails of a polygon where each corner and each bound is held against the definition once more, or None."""
    wrong = [f"corner {k}" for k, corner in enumerate(polygon.corners) if not _is_equilibrium(play, polygon.notion, corner)]
    wrong += [f"side {k}" for k, side in enumerate(polygon.sides) if not _is_bounded(play, polygon, *side)]
    return f"{wrong[0]} of {polygon.notion}" if wrong else None


def _is_bounded(play, polygon, direction, corner):
    """Whether the direction's bound is what the corner has there, and holds."""
    bound = polygon.bounds[direction]
    return Fraction(bound.most, bound.denominator) == _along(direction, polygon.corners[corner].point) and _holds(play, direction, bound)


def _is_equilibrium(play, notion, corner):
    """Whether weights above 0 pay the corner's point, and no deviation gains."""
    if min(corner.weights.values()) < 1 or sum(corner.weights.values()) != corner.total:
        return False
    if tuple(Fraction(paid, corner.total) for paid in play.paid(corner.weights)) != corner.point:
        return False
    return all(play.best(trigger, corner.weights)[0] <= 0 for trigger in play.triggers(notion))


def _holds(play, direction, bound):
    """Whether the weights are 0 or more, and the bound holds for every pair."""
    if bound.denominator < 1 or min(bound.weights.values(), default=0) < 0:
        return False
    factors = [bound.denominator * part for part in direction]
    sums = [factors[0] * one + factors[1] * two for one, two in zip(*play.pays)]
    for deviation, weight in bound.weights.items():
        sums = [number - weight * gain for number, gain in zip(sums, play.gains(deviation))]
    return max(sums) <= bound.most


def _along(direction, point):
    return direction[0] * point[0] + direction[1] * point[1]


def outward(start, end):
    """The direction, in coprime whole numbers, at whose left the way from one point to the other lies."""
    first, second = end[1] - start[1], start[0] - end[0]
    common = first.denominator * second.denominator
    first, second = int(first * common), int(second * common)
    divisor = gcd(first, second)
    return first // divisor, second // divisor


def sides_of(points):
    """Each edge's direction at both its ends, and the axes between them, once round from (1, 0) at the first corner."""
    edges = [outward(start, end) for start, end in zip(points, points[1:] + points[:1])] if len(points) > 1 else []
    sides, before = [((1, 0), 0)], (1, 0)
    for k, edge in enumerate(edges):
        sides += [(axis, k) for axis in _axes(before, edge)] + [(edge, k)]
        if k + 1 < len(edges) or edge != (1, 0):
            sides.append((edge, (k + 1) % len(edges)))
        before = edge
    return sides + ([(axis, 0) for axis in _axes(before, (1, 0))] if len(edges) == 0 or before != (1, 0) else [])


def _axes(before, after):
    """The axes strictly between two directions; (1, 0) as the second one is a full turn."""
    first, last = _quarter(before) + 1, _quarter(after) + (0 if 0 in after else 1)
    return AXES[first : last if after != (1, 0) else len(AXES)]


def _quarter(direction):
    """How many quarters of a turn from (1, 0) are complete at the direction."""
    first, second = direction
    if first > 0:
        return 0 if second >= 0 else 3
    if first < 0:
        return 1 if second > 0 else 2
    return 1 if second > 0 else 3
