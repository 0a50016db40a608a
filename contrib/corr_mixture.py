"""Points of a report's polygons: each one as a mixture of at most three corners, with the distribution that reaches it, or the side that
excludes it. All numbers are exact. A mixture of equilibria is one, as no deviation that gains at none of them gains at it."""
from collections import namedtuple
from fractions import Fraction
from functools import reduce
from math import gcd

from corr_report import Corner, Pair

# One side as an inequality of the game's own payoffs: weights without a common factor, and the most that they give at the side's corner.
Bound = namedtuple("Bound", "weights most corner")


def shares_of(points, point):
    """The corners' numbers with positive shares that sum to 1, by which a point is their mixture; None where it lies outside.

    The corners are those of a convex polygon, in order round it. It is cut into triangles at its first corner.
    """
    count = len(points)
    pieces = [(0, k, k + 1) for k in range(1, count - 1)] if count > 2 else [tuple(range(count))]
    found = (_in_piece([points[k] for k in piece], point) for piece in pieces)
    return next(([(k, share) for k, share in zip(piece, shares) if share] for piece, shares in zip(pieces, found) if shares), None)


def _in_piece(corners, point):
    """The shares of the corners of a triangle, a line or a point, or None."""
    if len(corners) == 1:
        return [Fraction(1)] if corners[0] == point else None
    shares = _on_line(*corners, point) if len(corners) == 2 else _in_triangle(*corners, point)
    return shares if shares and min(shares) >= 0 else None


def _on_line(one, two, point):
    if _turn(one, two, point) != 0:
        return None
    axis = 0 if one[0] != two[0] else 1
    share = Fraction(point[axis] - one[axis]) / (two[axis] - one[axis])
    return [1 - share, share]


def _in_triangle(one, two, three, point):
    whole = Fraction(_turn(one, two, three))
    return [_turn(two, three, point) / whole, _turn(three, one, point) / whole, _turn(one, two, point) / whole] if whole else None


def _turn(one, two, three):
    """Twice the area of a triangle, above 0 where its corners go counter-clockwise."""
    return (two[0] - one[0]) * (three[1] - one[1]) - (two[1] - one[1]) * (three[0] - one[0])


def mixed(corners, shares):
    """The distribution that mixes some corners' own ones: as a corner, with whole weights over one total, and equal pairs as one."""
    odds = {}
    for part, pair in ((share * Fraction(pair.weight, corners[k].total), pair) for k, share in shares for pair in corners[k].pairs):
        plans = tuple(pair.one), tuple(pair.two)
        odds[plans] = odds.get(plans, 0) + part
    total = reduce(lambda one, other: one * other // gcd(one, other), (part.denominator for part in odds.values()), 1)
    pairs = [Pair(int(part * total), list(one), list(two)) for (one, two), part in odds.items()]
    point = tuple(sum(share * corners[k].point[axis] for k, share in shares) for axis in (0, 1))
    return Corner(point, total, pairs)


def bounds(block, scales):
    """The sides of a block as inequalities, in order."""
    found = []
    for side in block.sides:
        weights = [part * scale for part, scale in zip(side.direction, scales)]
        factor = gcd(*weights) or 1
        weights = weights[0] // factor, weights[1] // factor
        found.append(Bound(weights, along(weights, block.corners[side.corner].point), side.corner))
    return found


def excluding(block, scales, point):
    """The side with the smallest weights that a point lies beyond, or None."""
    beyond = [bound for bound in bounds(block, scales) if along(bound.weights, point) > bound.most]
    return min(beyond, key=lambda bound: abs(bound.weights[0]) + abs(bound.weights[1]), default=None)


def along(weights, point):
    """How far a point lies in the direction of these weights."""
    return weights[0] * point[0] + weights[1] * point[1]
