"""A game file as a tree: the ways of the plans through it, and what they pay.

The tree takes what `corr` takes, and refuses what leaves it open what a plan pays. The limits of docs/FORMATS.md are for `corr` to see to.
"""
from collections import namedtuple
from fractions import Fraction
from functools import reduce
from math import gcd

from corr_report import Bad

CHANCE = 0
DIGITS = 30  # the most that a number of a game file may have
NOTHING = Fraction(0), Fraction(0)

# How a node is reached: its parent, the probability, what was paid on the path, and each player's last move.
Way = namedtuple("Way", "parent odds paid moves")
Leaf = namedtuple("Leaf", "node amounts")  # payoffs times the path's probability


class Tree:
    """The nodes of a game in file order, each with the nodes after its actions.

    `movers` has for each node who moves, None where the game ends; `places` the number of its set, by the order of the mover's sets;
    `sets` each player's sets, and `moves` for each of them the player's last move before it: a set's number and an action from 1.
    `amounts` has for the terminal nodes the payoffs of both, times the path's probability and the scales: whole numbers. `paid` has for
    them the payoffs alone, and `odds` for each node the product of the probabilities of chance on its path.
    """

    def __init__(self, game):
        if len(game.players) != 2:
            raise Bad(f"the game has {len(game.players)} players, not 2")
        self.sets = game.sets
        grown = _Growth(game)
        self.movers, self.places, self.children, self.moves = grown.movers, grown.places, grown.children, grown.moves
        self.odds, self.paid = grown.odds, grown.paid
        self.scales = tuple(_common(leaf.amounts[k].denominator for leaf in grown.leaves) for k in (0, 1))
        self.amounts = {leaf.node: _whole(leaf.amounts, self.scales) for leaf in grown.leaves}

    def pay(self, one, two):
        """The scaled payoffs of a pair of plans."""
        first = second = 0
        for leaf in self.leaves(one, two):
            first += self.amounts[leaf][0]
            second += self.amounts[leaf][1]
        return first, second

    def leaves(self, one, two):
        """The terminal nodes that a pair of plans reaches; only the nodes that it reaches are visited."""
        plans, reached = {1: one, 2: two}, [0]
        while reached:
            node = reached.pop()
            mover = self.movers[node]
            if mover is None:
                yield node
            elif mover == CHANCE:
                reached += self.children[node]
            else:
                reached.append(self.children[node][plans[mover][self.places[node]] - 1])

    def leaves_by_last_move(self, player, plan):
        """The terminal nodes to which a player's plan leads, by the other player's last move before them, None for no move."""
        found, reached = {}, [(0, None)]
        while reached:
            node, last = reached.pop()
            mover, place, after = self.movers[node], self.places[node], self.children[node]
            if mover is None:
                found.setdefault(last, []).append(node)
            elif mover == CHANCE:
                reached += [(child, last) for child in after]
            elif mover == player:
                reached.append((after[plan[place] - 1], last))
            else:
                reached += [(child, (place, action)) for action, child in enumerate(after, 1)]
        return found

    def actions(self, player, place):
        """The actions at a set of the player, from 1."""
        return range(1, len(self.sets[player][place].actions) + 1)

    def is_reached(self, player, place, plan):
        """Whether the plan's own actions lead to a set of the player."""
        move = self.moves[player][place]
        return move is None or plan[move[0]] == move[1]

    def plan_fault(self, player, plan):
        """Why this is no plan of the player, or None."""
        sets = self.sets[player]
        if len(plan) != len(sets):
            return f"has a plan of {len(plan)} entries for player {player}, who has {len(sets)} sets"
        faults = (self._entry_fault(player, place, plan) for place in range(len(sets)))
        return next((fault for fault in faults if fault), None)

    def _entry_fault(self, player, place, plan):
        action, there = plan[place], f"at set {self.sets[player][place].number} of player {player}"
        if action is not None and action > len(self.sets[player][place].actions):
            return f"has action {action} {there}, of {len(self.sets[player][place].actions)} actions"
        if self.is_reached(player, place, plan):
            return f"has no action {there}, where its plan leads" if action is None else None
        return None if action is None else f"has an action {there}, where its plan never leads"


class _Growth:
    """Takes the nodes one by one; `waiting` has the ways to those that are still to come, the next one last."""

    def __init__(self, game):
        self.numbers = {side: {each.number: k for k, each in enumerate(game.sets[side])} for side in (1, 2)}
        self.moves = {side: [None] * len(game.sets[side]) for side in (1, 2)}
        self.seen = {1: set(), 2: set()}
        self.lists, self.outcomes = {}, {"0": NOTHING}
        self.movers, self.places, self.children, self.leaves, self.odds, self.paid = [], [], [], [], [], {}
        self.waiting = [Way(None, Fraction(1), NOTHING, (None, None))]
        for self.at, node in enumerate(game.nodes):
            self._add(node)
        if self.waiting:
            raise Bad(f"the game ends after {len(game.nodes)} nodes, before its tree is closed")

    def _fail(self, what):
        raise Bad(f"node {self.at} of the game: {what}")

    def _add(self, node):
        if not self.waiting:
            self._fail("the nodes before it close the tree")
        way = self.waiting.pop()
        if way.parent is not None:
            self.children[way.parent].append(self.at)
        way = way._replace(parent=self.at, paid=tuple(a + b for a, b in zip(way.paid, self._pays(node))))
        self.children.append([])
        self.odds.append(way.odds)
        if node.kind == "t":
            self._leaf(way)
        elif node.kind == "c":
            self._chance(node, way)
        else:
            self._move(node, way)

    def _listed(self, node, listed, key):
        """A list, which may be left out where it was given before."""
        if not listed and key not in self.lists:
            self._fail("its actions are listed nowhere")
        if listed and self.lists.setdefault(key, listed) != listed:
            self._fail("its actions differ from those that were listed before")
        return self.lists[key]

    def _pays(self, node):
        pays = tuple(self._number(word) for word in node.payoffs)
        if len(pays) not in (0, 2):
            self._fail(f"an outcome pays 2 amounts, not {len(pays)}")
        if not pays and node.outcome not in self.outcomes:
            self._fail("what its outcome pays is given nowhere")
        if pays and self.outcomes.setdefault(node.outcome, pays) != pays:
            self._fail("its outcome pays something else than before")
        return self.outcomes[node.outcome]

    def _number(self, word):
        if len(word) > 2 * DIGITS:
            self._fail(f"a number has over {DIGITS} digits")
        return Fraction(word)

    def _leaf(self, way):
        self.movers.append(None)
        self.places.append(None)
        self.paid[self.at] = way.paid
        self.leaves.append(Leaf(self.at, [way.odds * paid for paid in way.paid]))

    def _chance(self, node, way):
        listed = list(zip(node.actions, (self._number(word) for word in node.probabilities)))
        listed = self._listed(node, listed, (CHANCE, node.number))
        self.movers.append(CHANCE)
        self.places.append(None)
        self.waiting += [way._replace(odds=way.odds * odds) for _, odds in reversed(listed)]

    def _move(self, node, way):
        if node.player not in ("1", "2"):
            self._fail(f"player {node.player} moves, and there are players 1 and 2")
        player = int(node.player)
        listed = self._listed(node, node.actions, (player, node.number))
        place = self.numbers[player][node.number]
        if place in self.seen[player] and self.moves[player][place] != way.moves[player - 1]:
            self._fail(f"player {player} has forgotten an own move")
        self.seen[player].add(place)
        self.moves[player][place] = way.moves[player - 1]
        self.movers.append(player)
        self.places.append(place)
        for action in range(len(listed), 0, -1):
            moves = ((place, action), way.moves[1]) if player == 1 else (way.moves[0], (place, action))
            self.waiting.append(way._replace(moves=moves))


def _common(numbers):
    """The least common multiple."""
    return reduce(lambda one, other: one * other // gcd(one, other), numbers, 1)


def _whole(amounts, scales):
    return tuple(int(amount * scale) for amount, scale in zip(amounts, scales))
