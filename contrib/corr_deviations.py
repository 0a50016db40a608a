"""All pairs of reduced plans of a game, and what the definition of a notion lets a player do other than follow a plan.

A player who meets a trigger may go on by any plan of the sets from there on; docs/DEFINITIONS.md, "Equilibrium", has the words.
"""
from collections import namedtuple

from corr_payoffs import payoff_rows, plan_count, reduced_plans, sums_by_last_move
from corr_report import Bad

LIMIT = 10000  # pairs of plans

# The set's place, or None for the start of play; the recommended action there, or None where the set alone is known.
Trigger = namedtuple("Trigger", "player place action")
Deviation = namedtuple("Deviation", "trigger plan")  # the plan names actions at the sets to which it leads from the trigger on


class Play:
    """The pairs of plans of a game. Pairs are numbered, player 1's plan by player 1's plan; `pays` has what both get, pair by pair."""

    def __init__(self, tree):
        count = plan_count(tree, 1) * plan_count(tree, 2)
        if count > LIMIT:
            said = count if count < 10**12 else "over 10^12"
            raise Bad(f"the game has {said} pairs of reduced plans: {LIMIT} are gone through at most")
        self.tree = tree
        self.plans = {player: reduced_plans(tree, player) for player in (1, 2)}
        self.numbers = {player: {plan: k for k, plan in enumerate(self.plans[player])} for player in (1, 2)}
        paid = [pair for row in payoff_rows(tree, 1, self.plans) for pair in row]
        self.pays = [pair[0] for pair in paid], [pair[1] for pair in paid]
        self.after = {player: [_after(tree, player, top) for top in range(len(tree.sets[player]))] for player in (1, 2)}
        self.sums = {player: [sums_by_last_move(tree, 3 - player, plan) for plan in self.plans[3 - player]] for player in (1, 2)}

    def split(self, pair):
        """The numbers of a pair's two plans."""
        return divmod(pair, len(self.plans[2]))

    def paid(self, weights):
        """What weighted pairs pay the two, summed."""
        return tuple(sum(weight * pays[pair] for pair, weight in weights.items()) for pays in self.pays)

    def triggers(self, notion):
        """What a player may know who leaves, player 1's triggers first."""
        if notion == "nfcce":
            return [Trigger(player, None, None) for player in (1, 2)]
        sets = [(player, place) for player in (1, 2) for place in range(len(self.tree.sets[player]))]
        if notion == "efcce":
            return [Trigger(player, place, None) for player, place in sets]
        return [Trigger(player, place, action) for player, place in sets for action in self.tree.actions(player, place)]

    def places(self, trigger):
        """The sets at which a player chooses anew who meets the trigger."""
        return range(len(self.tree.sets[trigger.player])) if trigger.place is None else self.after[trigger.player][trigger.place]

    def left(self, deviation):
        """For each plan of the player the number of the plan in its place: itself where it doesn't meet the trigger."""
        trigger, plan = deviation
        places, plans = set(self.places(trigger)), self.plans[trigger.player]
        return [self._grafted(old, plan, places, trigger) if _meets(old, trigger) else k for k, old in enumerate(plans)]

    def _grafted(self, old, plan, places, trigger):
        return self.numbers[trigger.player][tuple(plan[k] if k in places else action for k, action in enumerate(old))]

    def gains(self, deviation):
        """What the player gains by the deviation, pair by pair."""
        player, left, columns = deviation.trigger.player, self.left(deviation), len(self.plans[2])
        pays = self.pays[player - 1]
        if player == 1:
            rows = [pays[k * columns : (k + 1) * columns] for k in range(len(left))]
            return [new - old for k, row in enumerate(rows) for new, old in zip(rows[left[k]], row)]
        return [pays[first + left[k]] - pays[first + k] for first in range(0, len(pays), columns) for k in range(columns)]

    def best(self, trigger, weights):
        """What the player gains who meets the trigger and then does what is best against weighted pairs, and this deviation."""
        met = [(self.split(pair), weight) for pair, weight in weights.items()]
        met = [(pair, weight) for pair, weight in met if _meets(self.plans[trigger.player][pair[trigger.player - 1]], trigger)]
        deviation = Deviation(trigger, self._reply(trigger, self._summed(trigger.player, met)))
        pays, columns, places, gain = self.pays[trigger.player - 1], len(self.plans[2]), set(self.places(trigger)), 0
        for (one, two), weight in met:
            own = self.plans[trigger.player][(one, two)[trigger.player - 1]]
            left = self._grafted(own, deviation.plan, places, trigger)
            first, second = (left, two) if trigger.player == 1 else (one, left)
            gain += weight * (pays[first * columns + second] - pays[one * columns + two])
        return gain, deviation

    def _summed(self, player, met):
        """What the leaves pay that the other player's plans allow, by the player's last move, summed by weight."""
        others = _totals((pair[2 - player], weight) for pair, weight in met)
        paid = ((move, weight * pays[player - 1]) for k, weight in others.items() for move, pays in self.sums[player][k].items())
        return _totals(paid)

    def _reply(self, trigger, summed):
        """The best plan from the trigger on: at each set, from the last one back, the first of the best actions."""
        values, chosen, places = dict(summed), {}, self.places(trigger)
        for place in reversed(places):
            chosen[place] = max(self.tree.actions(trigger.player, place), key=lambda action: (values.get((place, action), 0), -action))
            move = self.tree.moves[trigger.player][place]
            values[move] = values.get(move, 0) + values.get((place, chosen[place]), 0)
        return self._reduced(trigger, chosen)

    def _reduced(self, trigger, chosen):
        plan = [None] * len(self.tree.sets[trigger.player])
        for place in self.places(trigger):
            if place == trigger.place or self.tree.is_reached(trigger.player, place, plan):
                plan[place] = chosen[place]
        return tuple(plan)


def _totals(numbers):
    """The sums of numbers by their keys."""
    sums = {}
    for key, number in numbers:
        sums[key] = sums.get(key, 0) + number
    return sums


def _meets(plan, trigger):
    """Whether a plan comes to the trigger's set, and there to its action."""
    if trigger.place is None:
        return True
    return plan[trigger.place] == trigger.action if trigger.action else plan[trigger.place] is not None


def _after(tree, player, top):
    """A set and all after it: those whose own sequences go through it."""
    found = [top]
    for place in range(top + 1, len(tree.sets[player])):
        move = tree.moves[player][place]
        if move is not None and move[0] in found:
            found.append(place)
    return found
