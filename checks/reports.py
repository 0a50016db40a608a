"""Reports read back, and their blocks held against the definitions."""
from fractions import Fraction

from definitions import belt_fault


class Report:
    """The scales and the blocks of a report: by notion a `Found` block, or the word that stands in place of a polygon."""

    def __init__(self, text):
        self.lines = iter(text.splitlines())
        assert next(self.lines) == "corr-report 1"
        self.scales = tuple(map(int, next(self.lines).split()[1:]))
        self.blocks = {}
        for line in self.lines:
            if line == "end":
                break
            _, notion, kind = line.split()
            if kind == "found":
                self.blocks[notion] = Found(self.lines)
            else:
                self.blocks[notion] = kind
                for _ in range(2 if kind == "toowide" else 1):
                    next(self.lines)


class Found:
    """Corners as (point, total, weighted pairs of plans); sides as (direction, corner, den, first, second)."""

    def __init__(self, lines):
        self.corners = [self._corner(lines) for _ in range(int(next(lines).split()[1]))]
        self.sides = [self._side(lines) for _ in range(int(next(lines).split()[1]))]

    def _corner(self, lines):
        words = next(lines).split()
        pairs = [(int(next(lines).split()[1]), plan(next(lines)), plan(next(lines))) for _ in range(int(words[7]))]
        return (Fraction(words[2]), Fraction(words[3])), int(words[5]), pairs

    def _side(self, lines):
        words = next(lines).split()
        first, second = ([int(y) for y in next(lines).split()[1:]] for _ in range(2))
        return (int(words[1]), int(words[2])), int(words[4]), int(words[6]), first, second

    def points(self):
        return [point for point, _, _ in self.corners]


def plan(line):
    return tuple(None if word == "-" else int(word) - 1 for word in line.split()[1:])


def fault(game, notion, block):
    """What is wrong with a polygon for a game, or None."""
    for k, (point, total, pairs) in enumerate(block.corners):
        if sum(w for w, _, _ in pairs) != total or any(w < 1 for w, _, _ in pairs):
            return f"the weights of corner {k}"
        if not all(game.is_reduced(1, one) and game.is_reduced(2, two) for _, one, two in pairs):
            return f"a plan of corner {k}"
        paid = [sum(w * game.pay(i, one, two) for w, one, two in pairs) for i in (1, 2)]
        if point != tuple(Fraction(paid[i - 1], total * game.scale[i]) for i in (1, 2)):
            return f"the point of corner {k}"
        gain = game.improves(notion, pairs)
        if gain:
            return f"corner {k}, where player {gain[0]} gains"
    program = game.program(notion)
    for k, side in enumerate(block.sides):
        if not is_certified(game, program, block, side):
            return f"side {k}"
    return belt_fault(block.points(), [(direction, corner) for direction, corner, _, _, _ in block.sides])


def is_certified(game, program, block, side):
    (a, b), corner, den, first, second = side
    if not len(first) == len(second) == len(program.rows):
        return False
    if block.points()[corner] != (Fraction(first[0], den * game.scale[1]), Fraction(second[0], den * game.scale[2])):
        return False
    one, two = program.payoffs
    sums = zip(program.products(first), program.products(second))
    return all(a * (y - den * one.get(j, 0)) + b * (z - den * two.get(j, 0)) >= 0 for j, (y, z) in enumerate(sums))
