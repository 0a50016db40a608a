"""The polygon of a notion from its definition alone, apart from the solver: one variable for each pair of reduced plans, one inequality for
each deviation of each player. So games have to be small. The simplex is exact: rows of whole numbers, each with a factor of its own."""
from fractions import Fraction
from functools import reduce
from itertools import product
from math import gcd

from definitions import plays


def polygon(game, notion):
    """The corners counter-clockwise from the first player's greatest payoff, of ties the second's greatest; none without an equilibrium."""
    table = Table(weighted_pairs(game, notion))
    if not table.begin():
        return []
    right, left = table.best((1, 0), (0, 1)), table.best((-1, 0), (0, -1))
    corners = [right] + between(table, right, left) + [left] + between(table, left, right)
    return [(one / game.scale[1], two / game.scale[2]) for one, two in dict.fromkeys(corners)]


def between(table, start, end):
    """The corners strictly between two corners, counter-clockwise."""
    along = end[0] - start[0], end[1] - start[1]
    outwards = along[1], -along[0]
    corner = table.best(outwards, along)
    if dot(outwards, corner) == dot(outwards, start):
        return []
    return between(table, start, corner) + [corner] + between(table, corner, end)


def dot(direction, point):
    return direction[0] * point[0] + direction[1] * point[1]


def weighted_pairs(game, notion):
    """For each pair of plans what it pays the two, and for each deviation what its player loses by it; each different list once."""
    plans = {side: reduced_plans(game, side) for side in (1, 2)}
    pays = {side: [[game.pay(side, one, two) for two in plans[2]] for one in plans[1]] for side in (1, 2)}
    ones, twos = (list(dict.fromkeys(deviations(game, notion, side, plans[side]))) for side in (1, 2))
    different = {}
    for i, j in product(range(len(plans[1])), range(len(plans[2]))):
        losses = [pays[1][i][j] - pays[1][to[i]][j] for to in ones] + [pays[2][i][j] - pays[2][i][to[j]] for to in twos]
        different[pays[1][i][j], pays[2][i][j], tuple(losses)] = None
    return list(different)


def reduced_plans(game, side):
    """All of a player's plans with an action at each set that the plan's own actions lead to, and nothing elsewhere."""
    plans = [()]
    for own, actions in zip(game.own[side], game.actions[side]):
        plans = [plan + (action,) for plan in plans for action in (range(actions) if plays(plan, own) else [None])]
    return plans


def deviations(game, notion, side, plans):
    """Each as the list of the numbers of the plans that come in the plans' places."""
    number = {plan: k for k, plan in enumerate(plans)}
    for top, sequence in game.triggers(notion, side):
        for further in continuations(game, side, top):
            yield tuple(number[grafted(game, side, top, sequence, plan, further)] for plan in plans)


def continuations(game, side, top):
    """The reduced plans for the player's sets from one on, or for all sets."""
    ways = [()]
    for place, (own, actions) in enumerate(zip(game.own[side], game.actions[side])):
        inside = top is None or game.is_below(side, place, top)
        since = from_set(own, top)
        ways = [way + (action,) for way in ways for action in (range(actions) if inside and plays(way, since) else [None])]
    return ways


def from_set(sequence, top):
    """The part of a sequence from a set on, which is empty where it doesn't go through the set; the whole where no set is named."""
    passed = [place for place, _ in sequence]
    if top is None:
        return sequence
    return sequence[passed.index(top) :] if top in passed else ()


def grafted(game, side, top, sequence, plan, further):
    """The plan, followed further by another way where it plays the trigger's sequence."""
    if not plays(plan, sequence):
        return plan
    return tuple(new if top is None or game.is_below(side, k, top) else old for k, (old, new) in enumerate(zip(plan, further)))


class Table:
    """A simplex table for weights of pairs that sum to 1 and under which no deviation gains. The columns: the pairs, a slack for each
    deviation, what the total still lacks, the factors of the two payoffs and the total in rows of their own (`aims`), the right sides."""

    def __init__(self, pairs):
        losses = sorted(set(zip(*(losses for _, _, losses in pairs))))
        losses = [row for row in losses if any(row)]
        self.pairs, self.slacks = len(pairs), len(losses)
        self.free = self.pairs + self.slacks
        self.rows = [self._row([1] * self.pairs, self.free, 1)]
        self.rows += [self._row([-loss for loss in row], self.pairs + k, 0) for k, row in enumerate(losses)]
        aims = [[one for one, _, _ in pairs], [two for _, two, _ in pairs], [1] * self.pairs]
        self.aims = [self._row([-x for x in aim], self.free + 1 + k, 0) for k, aim in enumerate(aims)]

    def _row(self, entries, basic, right):
        row = list(entries) + [0] * (self.slacks + 5)
        row[basic], row[-1] = 1, right
        return row

    def begin(self):
        """Whether the weights can sum to 1; the table then stands where they do."""
        self._climb(lambda: [[-x for x in self.aims[2][: self.free]]])
        return self._stand(2) == 1

    def best(self, direction, then):
        """The point that is farthest in a direction, and of those farthest in another one."""
        self._climb(lambda: [self._gains(direction), self._gains(then)])
        return self._stand(0), self._stand(1)

    def _stand(self, aim):
        return Fraction(self.aims[aim][-1], self.aims[aim][self.free + 1 + aim])

    def _gains(self, direction):
        """What each column gains in a direction, but for one positive factor."""
        first, second = self.aims[:2]
        a, b = Fraction(direction[0], first[self.free + 1]), Fraction(direction[1], second[self.free + 2])
        common = a.denominator * b.denominator
        a, b = int(a * common), int(b * common)
        return [-(a * x + b * y) for x, y in zip(first[: self.free], second[: self.free])]

    def _climb(self, gains):
        """Pivots until no column gains; later lists of gains decide where the earlier ones are 0."""
        while True:
            column, gain = max(enumerate(zip(*gains())), key=lambda item: item[1])
            if gain <= (0,) * len(gain):
                return
            self._pivot(self._leaving(column), column)

    def _leaving(self, column):
        """The row of least ratio. Ties are decided by the ratios in the slacks' columns, in order, so no table comes twice."""
        candidates = [row for row in self.rows if row[column] > 0]
        for place in [-1, *range(self.pairs, self.free)]:
            least = min(Fraction(row[place], row[column]) for row in candidates)
            candidates = [row for row in candidates if Fraction(row[place], row[column]) == least]
            if len(candidates) == 1:
                return candidates[0]
        raise AssertionError("two rows with one ratio in each slack's column")

    def _pivot(self, leaving, column):
        self.rows = [row if row is leaving else cleared(row, leaving, column) for row in self.rows]
        self.aims = [cleared(row, leaving, column) for row in self.aims]


def cleared(row, leaving, column):
    """The row with a multiple of the leaving one added so that it has 0 in the column, in lowest terms."""
    if row[column] == 0:
        return row
    p, q = leaving[column], row[column]
    row = [p * x - q * y for x, y in zip(row, leaving)]
    common = reduce(gcd, row)
    return [x // common for x in row]
