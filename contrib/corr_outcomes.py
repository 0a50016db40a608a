"""What a distribution over pairs of plans leads to: the probabilities of terminal nodes, and of pairs of actions where nobody moves first.

A distribution is a report's corner: weighted pairs of plans and their total.
"""
from fractions import Fraction

from corr_outline import Outline
from corr_report import plain
from corr_tree import CHANCE


def leaf_odds(tree, corner):
    """The probability of each terminal node, in the file's order."""
    odds = dict.fromkeys(tree.paid, Fraction(0))
    for pair, leaf in ((pair, leaf) for pair in corner.pairs for leaf in tree.leaves(pair.one, pair.two)):
        odds[leaf] += Fraction(pair.weight, corner.total) * tree.odds[leaf]
    return odds


def paths(game, names):
    """The path to each node in names: who moves, and the action, or its number where it has no name."""
    outline, found = Outline(game.nodes), []
    for step in outline.steps:
        found.append([] if step is None else found[step.parent] + [_move(game.nodes[step.parent], outline, step, names)])
    return [", ".join(path) for path in found]


def _move(node, outline, step, names):
    action = outline.listed(step.parent, node)[0][step.action - 1]
    mover = "chance" if node.kind == "c" else names[int(node.player) - 1]
    return plain(f"{mover} {action or step.action}")


def is_without_order(tree):
    """Whether each player has one set and there is no chance: a game that both play by one action."""
    return CHANCE not in tree.movers and all(len(tree.sets[player]) == 1 for player in (1, 2))


def joint_odds(tree, corner):
    """In a game without an order the probability of each pair of actions, row by row."""
    counts = [len(tree.sets[player][0].actions) for player in (1, 2)]
    odds = [[Fraction(0)] * counts[1] for _ in range(counts[0])]
    for pair in corner.pairs:
        odds[pair.one[0] - 1][pair.two[0] - 1] += Fraction(pair.weight, corner.total)
    return odds
