"""The program of a notion as docs/FORMATS.md has it, and multipliers of its rows that show a side of a polygon.

A sequence is its last move: a set's place and an action from 1, or None for the empty sequence.
"""
from collections import namedtuple
from fractions import Fraction
from functools import reduce
from itertools import product
from math import gcd

from corr_report import Bad
from corr_simplex import Simplex
from corr_tree import CHANCE

MOST_ROWS, MOST_COLUMNS = 2048, 8192

Side = namedtuple("Side", "direction corner denominator first second")


class Correlation:
    """The relevant pairs of sequences of a game, the leaves by pair, and the rows that weights of relevant pairs meet.

    `columns` has the number of each relevant pair, `rows` the total row and the correlation rows, `leaves` what each leaf pays both, with
    its pair; `connected` has pairs of a set of player 1 and one of player 2.
    """

    def __init__(self, tree):
        self.tree = tree
        self.connected, self.leaves = set(), []
        self._walk()
        self.sequences = {player: [None] + self.moves(player, range(len(tree.sets[player]))) for player in (1, 2)}
        relevant = [pair for pair in product(self.sequences[1], self.sequences[2]) if self._is_relevant(*pair)]
        self.columns = {pair: k for k, pair in enumerate(relevant)}
        self.rows = [{0: 1}] + [row for player in (1, 2) for row in self._correlation_rows(player)]
        self._simplex = None

    def moves(self, player, places):
        """The moves at some of a player's sets, in order."""
        return [(place, action) for place in places for action in self.tree.actions(player, place)]

    def _walk(self):
        tree, waiting = self.tree, [(0, (None, None), ())]
        while waiting:
            node, moves, above = waiting.pop()
            mover, place, after = tree.movers[node], tree.places[node], tree.children[node]
            if mover is None:
                self.leaves.append((tree.amounts[node], moves))
            elif mover == CHANCE:
                waiting += [(child, moves, above) for child in after]
            else:
                self.connected.update((other, place) if mover == 2 else (place, other) for player, other in above if player != mover)
                further = [self.pair(mover, (place, action), moves[2 - mover]) for action in range(1, len(after) + 1)]
                waiting += [(child, move, above + ((mover, place),)) for child, move in zip(after, further)]

    def pair(self, player, own, beside):
        """A pair of sequences from a player's own and the other's."""
        return (own, beside) if player == 1 else (beside, own)

    def column(self, player, own, beside):
        return self.columns[self.pair(player, own, beside)]

    def _is_relevant(self, one, two):
        return one is None or two is None or (one[0], two[0]) in self.connected

    def _correlation_rows(self, player):
        for place, beside in product(range(len(self.tree.sets[player])), self.sequences[3 - player]):
            if beside is None or self.pair(player, place, beside[0]) in self.connected:
                row = {self.column(player, move, beside): 1 for move in self.moves(player, [place])}
                _add(row, self.column(player, self.tree.moves[player][place], beside), -1)
                yield row

    def triangle(self):
        """The least triangle by the numbers of its sets in the file, or None."""
        sets, moves = self.tree.sets, self.tree.moves
        twins = {player: _twins(moves[player]) for player in (1, 2)}
        for one, two in product(twins[1], twins[2]):
            if {(one[0], two[0]), (one[1], two[1]), (one[0], two[1])} <= self.connected:
                return [sets[1][k].number for k in one] + [sets[2][k].number for k in two]
        return None

    def multipliers(self, prices, plans):
        """Multipliers of the rows, and their denominator, by which they sum to at least the price in each column.

        The plans are a pair of greatest price: the pivots begin where its sequences are in the basis.
        """
        if self._simplex is None:
            width = len(self.columns)
            self._simplex = Simplex([[row.get(k, 0) for k in range(width)] for row in self.rows], [], equations=True)
            for column in self._played(plans):
                self._simplex.enter(column)
        self._simplex.aim([prices])
        self._simplex.climb([[1]])
        return self._simplex.multipliers([1]), self._simplex.denominator

    def _played(self, plans):
        return [column for pair, column in self.columns.items() if all(self._plays(plan, move) for plan, move in zip(plans, pair))]

    @staticmethod
    def _plays(plan, move):
        return move is None or plan[move[0]] == move[1]


class Program:
    """The rows of a notion by column, the number of columns, and what each column pays the two."""

    def __init__(self, correlation, play, notion):
        self.correlation, self.play = correlation, play
        self.rows, self.triggers = list(correlation.rows), play.triggers(notion)
        first = len(correlation.columns)
        self.floor = first + sum(len(play.places(trigger)) for trigger in self.triggers)
        self.columns = self.floor + 1
        self.payoffs = self._payoffs(0), self._payoffs(1)
        for trigger in self.triggers:
            places = play.places(trigger)
            self._trigger_rows(trigger, {place: first + k for k, place in enumerate(places)})
            first += len(places)
        if len(self.rows) > MOST_ROWS or self.columns > MOST_COLUMNS:
            raise Bad(f"refused Size {notion} rows {len(self.rows)} columns {self.columns}")

    def _payoffs(self, player):
        row = {}
        for amounts, pair in self.correlation.leaves:
            _add(row, self.correlation.columns[pair], amounts[player])
        return row

    def _trigger_rows(self, trigger, values):
        player, top = trigger.player, trigger.place
        moves = self.correlation.tree.moves[player]
        sequence = (top, trigger.action) if trigger.action else None if top is None else moves[top]
        for move in self.correlation.moves(player, values):
            row = {values[move[0]]: 1, self.floor: -1}
            self._leave(row, player, sequence, move, values)
            self._close(row)
        self._close(self._following_row(trigger, sequence, values))

    def _following_row(self, trigger, sequence, values):
        row, player = {}, trigger.player
        for amounts, pair in self.correlation.leaves:
            if self._passes(pair[player - 1], trigger):
                _add(row, self.correlation.columns[pair], amounts[player - 1])
        if trigger.place is None:
            self._leave(row, player, sequence, None, values)
        else:
            self._take_value(row, values[trigger.place])
        return row

    def _passes(self, move, trigger):
        """Whether a sequence goes through the trigger."""
        if trigger.place is None:
            return True
        while move is not None and move[0] != trigger.place:
            move = self.correlation.tree.moves[trigger.player][move[0]]
        return move is not None and trigger.action in (None, move[1])

    def _leave(self, row, player, sequence, move, values):
        """Takes off what leaves and sets after a move give to a player who has left."""
        for amounts, pair in self.correlation.leaves:
            if pair[player - 1] == move:
                _add(row, self.correlation.column(player, sequence, pair[2 - player]), -amounts[player - 1])
        for place, value in values.items():
            if self.correlation.tree.moves[player][place] == move:
                self._take_value(row, value)

    def _take_value(self, row, value):
        _add(row, value, -1)
        _add(row, self.floor, 1)

    def _close(self, row):
        row[self.columns] = -1
        self.columns += 1
        self.rows.append(row)

    def multipliers(self, direction, bound, plans):
        """Multipliers of all rows that show a bound in a direction, and their denominator."""
        left = self._left(bound)
        prices = self._sums([-multiplier for multiplier in left], self.rows[len(self.correlation.rows) :], direction, bound.denominator)
        prices = [prices.get(column, 0) for column in range(len(self.correlation.columns))]
        first, denominator = self.correlation.multipliers(prices, plans)
        return first + [denominator * multiplier for multiplier in left], denominator * bound.denominator

    def _left(self, bound):
        """The multipliers of the incentive rows: how much weight leaves by each move, and at each trigger, below 0."""
        flows = _flows(bound)
        moves = ((trigger, self.correlation.moves(trigger.player, self.play.places(trigger))) for trigger in self.triggers)
        return [-flows.get((trigger, move), 0) for trigger, listed in moves for move in listed + [None]]

    def side(self, direction, corner, bound, found, plans):
        """A side of the polygon at a corner, with multipliers that show it."""
        multipliers, denominator = self.multipliers(direction, bound, plans)
        first, second, denominator = split(direction, multipliers, denominator, found.point)
        side = Side(direction, corner, denominator, first, second)
        return side if self._is_shown(side, found.point) else None

    def _is_shown(self, side, point):
        """Whether the multipliers give the point, and show the side in every column."""
        factors = [side.direction[0] * one + side.direction[1] * two for one, two in zip(side.first, side.second)]
        sums = self._sums(factors, self.rows, side.direction, -side.denominator)
        return min(sums.values()) >= 0 and (side.first[0], side.second[0]) == tuple(side.denominator * part for part in point)

    def _sums(self, factors, rows, direction, denominator):
        """By column the rows times their factors, and the payoffs in a direction times the denominator."""
        sums = {}
        payoffs = zip(self.payoffs, (denominator * part for part in direction))
        for row, factor in [*zip(rows, factors), *payoffs]:
            _add_row(sums, row, factor)
        return sums


def _flows(bound):
    """How much weight of a bound's deviations leaves at each trigger by each move, and in all, by None."""
    flows = {}
    for deviation, weight in bound.weights.items():
        moves = [None] + [(place, action) for place, action in enumerate(deviation.plan) if action]
        _add_row(flows, {(deviation.trigger, move): 1 for move in moves}, weight)
    return flows


def split(direction, multipliers, denominator, point):
    """Multipliers of a direction as those of player 1 and of player 2, with a denominator; their first numbers give a point.

    Of a number m the two parts are near its shares a m / (a^2 + b^2) and b m / (a^2 + b^2), so both stay small.
    """
    common = _common(denominator, point[0].denominator, point[1].denominator)
    numbers = [common // denominator * number for number in multipliers]
    parts = [tuple(int(common * part) for part in point)] + [_shares(direction, number) for number in numbers[1:]]
    divisor = reduce(gcd, (number for pair in parts for number in pair), common)
    return [one // divisor for one, _ in parts], [two // divisor for _, two in parts], common // divisor


def _common(*numbers):
    """The least common multiple."""
    return reduce(lambda one, other: one * other // gcd(one, other), numbers)


def _shares(direction, number):
    """Whole numbers x and y, near the shares, with a x + b y the number; a and b are coprime."""
    first, second = direction
    one, other = _coefficients(first, second)
    along = round(Fraction(number * (other * first - one * second), first * first + second * second))
    return one * number + along * second, other * number - along * first


def _coefficients(first, second):
    """Whole numbers x and y with a x + b y = 1, by Euclid's algorithm; a and b are coprime."""
    last, rest = (first, 1, 0), (second, 0, 1)
    while rest[0]:
        quotient = last[0] // rest[0]
        last, rest = rest, tuple(one - quotient * other for one, other in zip(last, rest))
    sign = last[0]  # the greatest common divisor, 1 or -1
    return sign * last[1], sign * last[2]


def _twins(moves):
    """The pairs of different sets of a player with one own sequence, in order."""
    return [(one, other) for one, other in product(range(len(moves)), repeat=2) if one != other and moves[one] == moves[other]]


def _add(numbers, key, number):
    numbers[key] = numbers.get(key, 0) + number


def _add_row(sums, row, factor):
    """Adds to each sum the row's number there times the factor."""
    for column, number in row.items():
        _add(sums, column, factor * number)
