"""What all pairs of plans of a game pay: the corners of the feasible payoffs, and the payoffs of the pure Nash equilibria.

Plans are reduced: they say nothing at sets to which they don't lead. The pairs are gone through one by one, up to a limit.
"""
from collections import namedtuple
from fractions import Fraction

from corr_report import Bad

LIMIT = 200000  # pairs of plans

Payoffs = namedtuple("Payoffs", "hull nash")  # points; the hull goes counter-clockwise


def payoffs_of(tree):
    if plan_count(tree, 1) * plan_count(tree, 2) > LIMIT:
        raise Bad(f"--payoffs goes through {LIMIT} pairs of plans at most, and this game has more")
    plans = {player: reduced_plans(tree, player) for player in (1, 2)}
    outer = 1 if len(plans[1]) <= len(plans[2]) else 2
    rows = payoff_rows(tree, outer, plans)
    hull = [_unscaled(pair, tree.scales) for pair in _hull(rows)]
    return Payoffs(hull, [_unscaled(pair, tree.scales) for pair in sorted(_nash(rows, outer - 1))])


def _unscaled(amounts, scales):
    return tuple(Fraction(amount, scale) for amount, scale in zip(amounts, scales))


def plan_count(tree, player):
    """How many reduced plans the player has. The sets after a move come later in their order than the move's own set."""
    after = {None: 1}  # in how many ways a plan goes on after a move
    for place in reversed(range(len(tree.sets[player]))):
        actions = range(1, len(tree.sets[player][place].actions) + 1)
        move = tree.moves[player][place]
        after[move] = after.get(move, 1) * sum(after.get((place, action), 1) for action in actions)
    return after[None]


def reduced_plans(tree, player):
    """The player's reduced plans, as the report writes them."""
    found = [()]
    for place, each in enumerate(tree.sets[player]):
        actions = [(action,) for action in range(1, len(each.actions) + 1)]
        found = [plan + action for plan in found for action in (actions if tree.is_reached(player, place, plan) else [(None,)])]
    return found


def payoff_rows(tree, outer, plans):
    """For each plan of the outer player the amounts with each plan of the other, in order."""
    inner = 3 - outer
    moves = [[None] + [(place, action) for place, action in enumerate(plan) if action is not None] for plan in plans[inner]]
    rows = []
    for plan in plans[outer]:
        sums = sums_by_last_move(tree, outer, plan)
        paid = [[sums[move] for move in made if move in sums] for made in moves]
        rows.append([(sum(pair[0] for pair in pairs), sum(pair[1] for pair in pairs)) for pairs in paid])
    return rows


def sums_by_last_move(tree, outer, plan):
    """What the terminal nodes that a plan reaches pay, by the other player's last move before them, None for no move."""
    reached = tree.leaves_by_last_move(outer, plan)
    return {last: tuple(sum(tree.amounts[leaf][k] for leaf in leaves) for k in (0, 1)) for last, leaves in reached.items()}


def _nash(rows, outer):
    """The amounts of the pairs at which no plan is better for either; `outer` is the place of the row player's amounts."""
    columns = [max(pair[outer] for pair in column) for column in zip(*rows)]
    best = [max(pair[1 - outer] for pair in row) for row in rows]
    return {pair for row, most in zip(rows, best) for pair, top in zip(row, columns) if pair[outer] == top and pair[1 - outer] == most}


def _hull(rows):
    """The corners of the least polygon that has all pairs of amounts, counter-clockwise."""
    points = sorted({pair for row in rows for pair in row})
    if len(points) == 1:
        return points
    return _half(points)[:-1] + _half(points[::-1])[:-1]


def _half(points):
    kept = []
    for point in points:
        _drop_inner(kept, point)
        kept.append(point)
    return kept


def _drop_inner(kept, point):
    """Takes off the last points that the next one makes no corners."""
    while len(kept) > 1 and _turn(kept[-2], kept[-1], point) <= 0:
        kept.pop()


def _turn(one, two, three):
    return (two[0] - one[0]) * (three[1] - one[1]) - (two[1] - one[1]) * (three[0] - one[0])
