"""The report and the game that a tool is given. A report that isn't of its game is refused: the scales, and what the plans of each corner
pay in the game's tree, have to be what the report says. Whether a corner is an equilibrium is for `corr check` to say."""
from collections import namedtuple
from fractions import Fraction

from corr_report import WHITE, Bad, point_text, read_bytes, read_game, read_report, shortened
from corr_tree import Tree

NAMED = 60  # the most signs of a title or a path in a refusal

Inputs = namedtuple("Inputs", "report game tree")  # no game and no tree where none is given


def read_inputs(options):
    """The report, and the game that `--game` names or that follows the report."""
    data = read_bytes(options.report)
    if WHITE.sub(b"", data[:NAMED]).startswith(b"EFG"):
        raise Bad(f"{_source(options.report)}this is a game, not a report: give it by --game")
    if data.startswith(b"\xef\xbb\xbf"):
        raise Bad(f"{_source(options.report)}a byte order mark stands before the report: save it as UTF-8 without one")
    report, rest = read_report(data)
    if options.game is not None:
        rest = read_bytes(options.game)
    elif not WHITE.sub(b"", rest):
        return Inputs(report, None, None)
    game, tree = game_and_tree(rest, options.game)
    want_own(report, game, tree, options.game)
    return Inputs(report, game, tree)


def game_and_tree(data, path):
    """A game and its tree; the path is None where the game follows a report."""
    if data.startswith(b"corr-report"):
        raise Bad(f"{_source(path)}this is a report, not a game" + ("" if path else ": it follows another report"))
    game = read_game(data)
    return game, Tree(game)


def want_own(report, game, tree, path):
    """Refuses a report that isn't of this game."""
    fault = _fault(report, tree)
    if fault:
        raise Bad(f"the report isn't of the game {_called(game, path)}: {fault}")


def _source(path):
    return f"{shortened(path, NAMED)}: " if path not in (None, "-") else ""


def _called(game, path):
    name = f"'{shortened(game.title, NAMED)}'" if game.title else "without a title"
    if path is None:
        return f"{name} that follows it"
    return f"{name} ({'standard input' if path == '-' else shortened(path, NAMED)})"


def _fault(report, tree):
    """Where the report says something else than the tree, first in the report's order, or None."""
    for player, said, own in zip((1, 2), report.scales, tree.scales):
        if said != own:
            return f"it says that player {player}'s scale is {said}, and the game's is {own}"
    plays = _Plays(tree)
    faults = (plays.fault(corner, f"corner {k} of {block.notion}") for block in report.blocks for k, corner in enumerate(block.corners))
    return next((fault for fault in faults if fault), None)


class _Plays:
    """What the pairs of plans pay; each pair and plan is looked at once, however often the report repeats it."""

    def __init__(self, tree):
        self.tree = tree
        self.paid, self.sound = {}, set()

    def fault(self, corner, name):
        weights = sum(pair.weight for pair in corner.pairs)
        if weights != corner.total:
            return f"{name} has weights that sum to {weights}, not {corner.total}"
        sums = [0, 0]
        for pair in corner.pairs:
            one, two = tuple(pair.one), tuple(pair.two)
            fault = self._plan_fault(1, one) or self._plan_fault(2, two)
            if fault:
                return f"{name} {fault}"
            sums = [before + pair.weight * amount for before, amount in zip(sums, self._pay(one, two))]
        paid = tuple(Fraction(amount, corner.total * scale) for amount, scale in zip(sums, self.tree.scales))
        return None if paid == corner.point else f"{name} says {point_text(corner.point)}, and its plans pay {point_text(paid)} there"

    def _pay(self, one, two):
        if (one, two) not in self.paid:
            self.paid[one, two] = self.tree.pay(one, two)
        return self.paid[one, two]

    def _plan_fault(self, player, plan):
        if (player, plan) in self.sound:
            return None
        self.sound.add((player, plan))
        return self.tree.plan_fault(player, plan)
