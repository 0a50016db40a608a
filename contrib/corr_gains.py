"""What the players gain by leaving the mediator, where a distribution over pairs of plans is given.

The deviations are those of docs/DEFINITIONS.md. At a trigger a player leaves for a full choice: an action at the trigger's set and at each
set below it, whatever the plan there. Under EFCE a trigger is an action that is recommended at a set, under EFCCE a set, under NFCCE the
start of play. As nobody forgets own moves, the best full choice is found from the last sets to the first.
"""
from collections import namedtuple
from fractions import Fraction

# A player; a set's place among the player's, None for the start; the recommended action, None where the player leaves without one.
Trigger = namedtuple("Trigger", "player place action")
# `odds` is the probability that the trigger is reached; `following` and `deviating` are what the player then expects by following and by
# the best deviation; `choice` has the actions of that, each with its set's place. All but the odds are None where the trigger is never
# reached, and the last two where the player can but follow.
Gain = namedtuple("Gain", "trigger odds following deviating choice")


def gains(tree, corner, notion):
    """The gains at all triggers of a notion, player by player."""
    found = []
    for player in (1, 2):
        entries = [_Entry(tree, player, pair) for pair in corner.pairs]
        found += [_gain(tree, trigger, entries, corner.total) for trigger in triggers(tree, player, notion)]
    return found


def triggers(tree, player, notion):
    if notion == "nfcce":
        return [Trigger(player, None, None)]
    places = range(len(tree.sets[player]))
    if notion == "efcce":
        return [Trigger(player, place, None) for place in places]
    return [Trigger(player, place, action) for place in places for action in range(1, len(tree.sets[player][place].actions) + 1)]


def gaining(found):
    """Those of some gains that are above 0."""
    return [gain for gain in found if gain.deviating is not None and gain.deviating > gain.following]


class _Entry:
    """One pair of plans as a player meets it: the own plan, and what the other's leads to, by the own last move, None for no move."""

    def __init__(self, tree, player, pair):
        self.tree, self.player = tree, player
        self.own, other = (pair.one, pair.two) if player == 1 else (pair.two, pair.one)
        self.amounts, self.odds = {}, {}
        for last, leaves in tree.leaves_by_last_move(3 - player, other).items():
            self.amounts[last] = pair.weight * sum(tree.amounts[leaf][player - 1] for leaf in leaves)
            self.odds[last] = pair.weight * sum(tree.odds[leaf] for leaf in leaves)

    def meets(self, trigger):
        if trigger.place is None:
            return True
        action = self.own[trigger.place]
        return action is not None and trigger.action in (None, action)

    def followed(self, sums, places):
        """The sum over the terminal nodes that follow these sets by the own plan; the start's has those before any own move too."""
        moves = [(place, self.own[place]) for place in places if place is not None and self.own[place] is not None]
        return sum(sums.get(move, 0) for move in moves + [None] * (None in places))


def _gain(tree, trigger, entries, total):
    met = [entry for entry in entries if entry.meets(trigger)]
    places = _under(tree, trigger)
    odds = Fraction(sum(entry.followed(entry.odds, places) for entry in met)) / total
    if not odds:
        return Gain(trigger, odds, None, None, None)
    unit = odds * total * tree.scales[trigger.player - 1]
    following = sum(entry.followed(entry.amounts, places) for entry in met) / unit
    amounts = _summed(met)
    best = _best(tree, trigger, places, amounts)
    if best is None:
        return Gain(trigger, odds, following, None, None)
    return Gain(trigger, odds, following, best[0] / unit, best[1])


def _under(tree, trigger):
    """The trigger's set and those below it, in order; for the start None and all sets."""
    moves = tree.moves[trigger.player]
    found = [trigger.place]
    for place, move in enumerate(moves):
        before = None if move is None else move[0]
        if place != trigger.place and before in found:
            found.append(place)
    return found


def _summed(entries):
    amounts = {}
    for last, amount in (item for entry in entries for item in entry.amounts.items()):
        amounts[last] = amounts.get(last, 0) + amount
    return amounts


def _best(tree, trigger, places, amounts):
    """The most that a full choice gives, and its actions; None where the player can but follow."""
    after = {}  # for each move, and None for the start, the best values at the sets right after it
    for place in reversed(places):
        if place is None:
            break
        value = _best_at(tree, trigger, place, amounts, after)
        if place == trigger.place:
            return value
        after.setdefault(tree.moves[trigger.player][place], []).append(value)
    return _joined(amounts.get(None, 0), (), after.get(None, []))


def _best_at(tree, trigger, place, amounts, after):
    """The best value at a set: of the actions there one that gives the most, the first of them. At its own trigger a recommended action
    with no set after it would be following."""
    values = []
    for action in range(1, len(tree.sets[trigger.player][place].actions) + 1):
        move = place, action
        is_following = place == trigger.place and action == trigger.action and move not in after
        if not is_following:
            values.append(_joined(amounts.get(move, 0), (move,), after.get(move, [])))
    return max(values, key=lambda value: value[0], default=None)


def _joined(amount, choice, values):
    """An amount with the values at several sets, and all their actions in order."""
    return amount + sum(value[0] for value in values), choice + tuple(move for value in reversed(values) for move in value[1])
