"""Families of games that people study, by their parameters, as files of Gambit's EFG format; and NAMED, the list of those on which
bench/wide counts how many notions are answered.

A game is written as a tree in the form of checks/definitions. An information set is named by what its player knows there, the own
moves among it.
"""
import random
import sys
from itertools import product
from pathlib import Path

sys.dont_write_bytecode = True
sys.path.insert(0, str(Path(__file__).resolve().parent.parent / "checks"))

from definitions import text_of  # noqa: E402


class Sets:
    """The numbers of information sets, in the order in which they are met."""

    def __init__(self):
        self.numbers = {1: {}, 2: {}}

    def move(self, player, known, options):
        """A node of a player who knows this, with the trees that the actions lead to."""
        numbers = self.numbers[player]
        return "p", player, numbers.setdefault(known, len(numbers) + 1), options


def end(one, two):
    return "t", (one, two)


def unseen(sets, one_knows, two_knows, actions, after):
    """Both choose one of as many actions without seeing the other's choice; `after` gives the tree that follows two choices."""
    first, second = actions
    return sets.move(1, one_knows, [sets.move(2, two_knows, [after(a, b) for b in range(second)]) for a in range(first)])


def sheriff(load, bribe, rounds):
    """A smuggler loads up to so many forbidden items and offers up to so much, in each round; in the last one the sheriff's answer
    counts. An item is worth 5, and costs 1 where it is found; where nothing is found the sheriff pays 1 (Farina, Ling, Fang and
    Sandholm 2019)."""
    sets = Sets()

    def settled(items, offer, passes):
        if passes:
            return end(5 * items - offer, offer)
        return end(-items, items) if items else end(1, -1)

    def offered(items, said, left):
        return sets.move(1, (items, said), [answered(items, (*said, offer), left) for offer in range(bribe + 1)])

    def answered(items, said, left):
        options = [settled(items, said[-1], passes) if left == 1 else offered(items, (*said, passes), left - 1) for passes in (True, False)]
        return sets.move(2, said, options)

    return sets.move(1, "load", [offered(items, (), rounds) for items in range(load + 1)])


def battleship(cells, shots):
    """Each hides a ship in one of the cells of a row, and then they shoot by turns, at a new cell each time, until a ship is hit or each
    had so many shots. To sink a ship is worth 1, and to lose it costs 2 (Farina, Ling, Fang and Sandholm 2019)."""
    sets = Sets()

    def shoot(ships, fired):
        player = 1 + len(fired) % 2
        if len(fired) == 2 * shots:
            return end(0, 0)
        return sets.move(player, (ships[player - 1], fired), [hit_or_on(ships, fired, c) for c in range(cells) if c not in fired[player - 1 :: 2]])

    def hit_or_on(ships, fired, cell):
        player = 1 + len(fired) % 2
        if ships[2 - player] == cell:
            return end(1, -2) if player == 1 else end(-2, 1)
        return shoot(ships, (*fired, cell))

    return unseen(sets, "hide", "hide", (cells, cells), lambda a, b: shoot((a, b), ()))


def centipede(moves, doubling):
    """By turns each takes the larger heap or lets both grow: from 4 and 1 they double (McKelvey and Palfrey 1992), or from 2 and 0 each
    grows by one (Rosenthal 1981)."""
    sets = Sets()

    def heaps(grown):
        return (4 * 2**grown, 2**grown) if doubling else (2 + grown, grown)

    def at(move):
        large, small = heaps(move - 1)
        player = 2 - move % 2
        taken = end(large, small) if player == 1 else end(small, large)
        if move > moves:
            return taken
        return sets.move(player, move, [taken, at(move + 1)])

    return at(1)


def repeated(table, rounds):
    """A table that is played so many times; after each round both see what was done. Payoffs are added up."""
    sets = Sets()

    def play(history, one, two):
        if len(history) == rounds:
            return end(one, two)
        size = len(table), len(table[0])
        return unseen(sets, history, history, size, lambda a, b: play((*history, (a, b)), one + table[a][b][0], two + table[a][b][1]))

    return play((), 0, 0)


def entry(markets):
    """In each market in turn entrants, who share what they earn, stay out, which pays 1 and 5, or come in; then the incumbent fights,
    which pays nothing, or accepts, which pays 2 and 1 (Selten 1978)."""
    sets = Sets()

    def market(history, one, two):
        if len(history) == markets:
            return end(one, two)
        fight = market((*history, "fought"), one, two)
        accept = market((*history, "accepted"), one + 2, two + 1)
        return sets.move(1, history, [market((*history, "out"), one + 1, two + 5), sets.move(2, history, [fight, accept])])

    return market((), 0, 0)


def bargaining(step, rounds):
    """By turns one offers the other a part of 100, in steps; where all offers are refused nobody gets anything, and in each further
    round half is left (Stahl 1972)."""
    sets = Sets()

    def offer(history, left):
        if left == 0:
            return end(0, 0)
        proposer, whole = 1 + len(history) % 2, 100 // 2 ** len(history)
        return sets.move(proposer, ("offers", history), [answer(history, proposer, whole, part, left) for part in range(0, whole + 1, step)])

    def answer(history, proposer, whole, part, left):
        agreed = end(whole - part, part) if proposer == 1 else end(part, whole - part)
        return sets.move(3 - proposer, ("answers", *history, part), [agreed, offer((*history, part), left - 1)])

    return offer((), rounds)


def goofspiel(cards, values):
    """Each bids the cards 1 to so many, one a round, for prizes in this order; the higher bid wins the prize, and equal bids lose it. The
    values are those of the prizes to each player (Ross 1971)."""
    sets = Sets()

    def bid(history, one, two):
        round_ = len(history)
        if round_ == cards:
            return end(one, two)
        hands = [[c for c in range(1, cards + 1) if c not in [pair[k] for pair in history]] for k in (0, 1)]

        def won(a, b):
            first, second = hands[0][a], hands[1][b]
            gains = (values[0][round_], 0) if first > second else (0, values[1][round_]) if second > first else (0, 0)
            return bid((*history, (first, second)), one + gains[0], two + gains[1])

        return unseen(sets, history, history, (len(hands[0]), len(hands[1])), won)

    return bid((), 0, 0)


def table(size, least, greatest, seed):
    """A square table of drawn payoffs, played without seeing."""
    draw = random.Random(f"{size} {least} {greatest} {seed}")
    pays = [[(draw.randint(least, greatest), draw.randint(least, greatest)) for _ in range(size)] for _ in range(size)]
    return unseen(Sets(), "", "", (size, size), lambda a, b: end(*pays[a][b]))


DILEMMA = (((3, 3), (0, 5)), ((5, 0), (1, 1)))
CHICKEN = (((0, 0), (7, 2)), ((2, 7), (6, 6)))
PRIZES = {"alike": ((3, 2, 1), (3, 2, 1)), "apart": ((5, 3, 1), (2, 3, 7))}


def named():
    """Names of games with their trees."""
    for load, bribe, rounds in (
        *((1, 1, 1), (2, 1, 1), (2, 2, 1), (3, 2, 1), (5, 2, 1), (5, 3, 1), (10, 3, 1)),
        *((1, 1, 2), (2, 1, 2), (2, 2, 2)),
    ):
        yield f"sheriff {load} {bribe} {rounds}", sheriff(load, bribe, rounds)
    for cells, shots in ((2, 1), (3, 1), (4, 1), (2, 2), (3, 2)):
        yield f"battleship {cells} {shots}", battleship(cells, shots)
    for moves, doubling in product((4, 6, 8, 10, 12, 16, 20), (True, False)):
        yield f"centipede {moves} {'doubling' if doubling else 'by one'}", centipede(moves, doubling)
    for rounds in (2, 3):
        yield f"dilemma, {rounds} rounds", repeated(DILEMMA, rounds)
        yield f"chicken, {rounds} rounds", repeated(CHICKEN, rounds)
    for markets in (2, 3, 4):
        yield f"entry, {markets} markets", entry(markets)
    for step, rounds in ((10, 1), (5, 1), (25, 2)):
        yield f"bargaining by {step}, {rounds} rounds", bargaining(step, rounds)
    for name, values in PRIZES.items():
        yield f"goofspiel 3, prizes valued {name}", goofspiel(3, values)


def tables():
    """The square tables that are counted apart, by the range of their payoffs and their size."""
    for (least, greatest), size in product(((0, 9), (0, 99), (-100, 100)), range(2, 9)):
        yield f"tables {size} by {size}, {least}..{greatest}", [table(size, least, greatest, seed) for seed in range(20)]


def text(tree):
    return text_of(tree)
