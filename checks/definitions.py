"""The notions of correlated equilibrium in plain programs, apart from the solver: plans, deviations, the program of a notion, the
belt of sides. They go through plans and deviations one by one, so games have to be small.

A tree is ("t", (one, two)), ("c", [(probability, tree), ..]) or ("p", player, set, [tree, ..]), with numbers as the file writes them.
"""
from fractions import Fraction
from functools import reduce
from itertools import product
from math import gcd

AXES = ((1, 0), (0, 1), (-1, 0), (0, -1))


def text_of(tree):
    """The tree as a game file."""
    lines = ['EFG 2 R "drawn" { "A" "B" }']
    listed = set()
    counts = {"t": 0, "c": 0}

    def add(node):
        if node[0] == "t":
            counts["t"] += 1
            lines.append(f't "" {counts["t"]} {{ {node[1][0]} {node[1][1]} }}')
        elif node[0] == "c":
            counts["c"] += 1
            actions = " ".join(f'"{k}" {p}' for k, (p, _) in enumerate(node[1]))
            lines.append(f'c "" {counts["c"]} {{ {actions} }} 0')
            for _, kid in node[1]:
                add(kid)
        else:
            _, side, number, kids = node
            actions = "" if (side, number) in listed else "{ " + " ".join(f'"{k}"' for k in range(len(kids))) + " } "
            listed.add((side, number))
            lines.append(f'p "" {side} {number} {actions}0')
            for kid in kids:
                add(kid)

    add(tree)
    return "\n".join(lines) + "\n"


class Game:
    """Sets in the order of their first nodes, own sequences, connected sets, leaves with whole amounts."""

    def __init__(self, tree):
        self.actions = {1: [], 2: []}
        self.own = {1: [], 2: []}
        self.numbers = {}
        self.connected = set()
        self.forgets = False
        self.paid = []
        self._walk(tree, Fraction(1), {1: (), 2: ()}, ())
        self.scale = {i: common_multiple((p * Fraction(pays[i - 1])).denominator for p, pays, _, _ in self.paid) for i in (1, 2)}
        self.leaves = [
            (tuple(int(p * Fraction(pays[i - 1]) * self.scale[i]) for i in (1, 2)), one, two) for p, pays, one, two in self.paid
        ]

    def _walk(self, node, chance, sequences, above):
        if node[0] == "t":
            self.paid.append((chance, node[1], sequences[1], sequences[2]))
        elif node[0] == "c":
            for probability, kid in node[1]:
                self._walk(kid, chance * Fraction(probability), sequences, above)
        else:
            _, side, number, kids = node
            place = self._place(side, number, len(kids), sequences[side])
            self.connected |= {(p, place) if side == 2 else (place, p) for mover, p in above if mover != side}
            for action, kid in enumerate(kids):
                further = {**sequences, side: sequences[side] + ((place, action),)}
                self._walk(kid, chance, further, above + ((side, place),))

    def _place(self, side, number, actions, own):
        if (side, number) not in self.numbers:
            self.numbers[side, number] = len(self.own[side])
            self.actions[side].append(actions)
            self.own[side].append(own)
        place = self.numbers[side, number]
        self.forgets |= self.own[side][place] != own
        return place

    def has_triangle(self):
        pairs = {i: [(a, b) for a, b in product(range(len(self.own[i])), repeat=2) if a != b and self.own[i][a] == self.own[i][b]] for i in (1, 2)}
        return any({(a, c), (b, d), (a, d)} <= self.connected for (a, b), (c, d) in product(pairs[1], pairs[2]))

    def sequences(self, side):
        """The empty one, then by set and by action."""
        sets = range(len(self.own[side]))
        return [()] + [self.own[side][k] + ((k, a),) for k in sets for a in range(self.actions[side][k])]

    def is_below(self, side, place, top):
        return place == top or any(k == top for k, _ in self.own[side][place])

    def is_reduced(self, side, plan):
        """An action in range at each set that the plan's own actions lead to, and nothing elsewhere."""
        return len(plan) == len(self.own[side]) and all(
            action in range(self.actions[side][k]) if plays(plan, self.own[side][k]) else action is None for k, action in enumerate(plan)
        )

    def pay(self, side, one, two):
        return sum(amounts[side - 1] for amounts, s, t in self.leaves if plays(one, s) and plays(two, t))

    def triggers(self, notion, side):
        """Each as the set and the sequence that a plan has to play; None for the start."""
        if notion == "nfcce":
            return [(None, ())]
        own, actions = self.own[side], self.actions[side]
        if notion == "efcce":
            return [(k, own[k]) for k in range(len(own))]
        return [(k, own[k] + ((k, a),)) for k in range(len(own)) for a in range(actions[k])]

    def improves(self, notion, pairs):
        """A deviation of the notion by which a player gains on these weighted pairs of plans, or None."""
        for side in (1, 2):
            followed = sum(w * self.pay(side, one, two) for w, one, two in pairs)
            for (top, sequence), full in product(self.triggers(notion, side), product(*map(range, self.actions[side]))):
                left = sum(w * self.pay(side, *self._graft(side, top, sequence, full, one, two)) for w, one, two in pairs)
                if left > followed:
                    return side, top, sequence, full
        return None

    def _graft(self, side, top, sequence, full, one, two):
        mine = one if side == 1 else two
        if plays(mine, sequence):
            mine = tuple(full[k] if top is None or self.is_below(side, k, top) else mine[k] for k in range(len(mine)))
        return (mine, two) if side == 1 else (one, mine)

    def program(self, notion):
        """The rows as dictionaries by column, the number of columns, and the payoffs by column."""
        return Program(self, notion)


def common_multiple(numbers):
    return reduce(lambda a, b: a * b // gcd(a, b), numbers, 1)


def plays(plan, sequence):
    return all(plan[k] == a for k, a in sequence)


class Program:
    """The program of a notion, row by row."""

    def __init__(self, game, notion):
        self.game = game
        firsts, seconds = game.sequences(1), game.sequences(2)
        relevant = [(s, t) for s in firsts for t in seconds if not s or not t or (s[-1][0], t[-1][0]) in game.connected]
        self.index = {pair: k for k, pair in enumerate(relevant)}
        self.rows = [{0: 1}]
        for side in (1, 2):
            self._correlation_rows(side, (seconds, firsts)[side - 1])
        triggers = [(side, *trigger) for side in (1, 2) for trigger in game.triggers(notion, side)]
        sets = [[k for k in range(len(game.own[i])) if top is None or game.is_below(i, k, top)] for i, top, _ in triggers]
        values = iter(range(len(relevant), len(relevant) + sum(map(len, sets))))
        self.floor = len(relevant) + sum(map(len, sets))
        self.columns = self.floor + 1
        for trigger, places in zip(triggers, sets):
            self._trigger_rows(*trigger, {k: next(values) for k in places})
        self.payoffs = ({}, {})
        for amounts, s, t in game.leaves:
            for row, amount in zip(self.payoffs, amounts):
                add(row, self.index[s, t], amount)

    def column(self, side, own, beside):
        return self.index[(own, beside) if side == 1 else (beside, own)]

    def _correlation_rows(self, side, besides):
        game = self.game
        for k, own in enumerate(game.own[side]):
            for beside in besides:
                if beside and ((k, beside[-1][0]) if side == 1 else (beside[-1][0], k)) not in game.connected:
                    continue
                row = {self.column(side, own + ((k, a),), beside): 1 for a in range(game.actions[side][k])}
                add(row, self.column(side, own, beside), -1)
                self.rows.append(row)

    def _trigger_rows(self, side, top, sequence, values):
        game = self.game
        for k, value in values.items():
            for action in range(game.actions[side][k]):
                move = game.own[side][k] + ((k, action),)
                row = {value: 1, self.floor: -1}
                self._leave(row, side, sequence, move, values)
                self._close(row)
        row = {}
        for amounts, s, t in game.leaves:
            own = (s, t)[side - 1]
            if top is None or (own[: len(sequence)] == sequence and any(k == top for k, _ in own)):
                add(row, self.index[s, t], amounts[side - 1])
        if top is None:
            self._leave(row, side, sequence, (), values)
        else:
            add(row, values[top], -1)
            add(row, self.floor, 1)
        self._close(row)

    def _leave(self, row, side, sequence, move, values):
        """Takes off what the leaves and sets right behind a move give to a player who has left."""
        for amounts, s, t in self.game.leaves:
            own, beside = (s, t) if side == 1 else (t, s)
            if own == move:
                add(row, self.column(side, sequence, beside), -amounts[side - 1])
        for k, value in values.items():
            if self.game.own[side][k] == move:
                add(row, value, -1)
                add(row, self.floor, 1)

    def _close(self, row):
        add(row, self.columns, -1)
        self.columns += 1
        self.rows.append(row)

    def products(self, multipliers):
        """The product of the multipliers with each column."""
        sums = [0] * self.columns
        for y, row in zip(multipliers, self.rows):
            for column, value in row.items():
                sums[column] += y * value
        return sums


def add(row, column, value):
    row[column] = row.get(column, 0) + value


def angle_before(x, y):
    """Whether the direction x comes before y, counter-clockwise from (1, 0)."""
    halves = [0 if d[1] > 0 or (d[1] == 0 and d[0] > 0) else 1 for d in (x, y)]
    return halves[0] < halves[1] or (halves[0] == halves[1] and x[0] * y[1] > x[1] * y[0])


def belt_fault(points, sides):
    """What is wrong with sides, given as directions and corners in order round the points, or None."""
    count, turns = len(points), 0
    if sides[0] != ((1, 0), 0):
        return "the first side"
    for k, (x, c) in enumerate(sides):
        y, d = sides[(k + 1) % len(sides)]
        if c == d:
            full = k > 0 and x == (1, 0)
            if full or not (y == (1, 0) or angle_before(x, y)):
                return f"the turn behind side {k}"
        else:
            turns += 1
            if x != y or d != (c + 1) % count or points[c] == points[d]:
                return f"the edge behind side {k}"
    directions = [x for x, _ in sides]
    if turns != (count if count > 1 else 0) or any(axis not in directions for axis in AXES):
        return "the whole"
    twice = all(directions.count(x) == 2 or (x in AXES and directions.count(x) == 1) for x in directions)
    return None if twice else "the number of sides in a direction"
