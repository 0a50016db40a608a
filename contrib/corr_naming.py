"""Plans with the names that a game gives to players, sets and actions, next to the numbers of its file."""
from corr_report import plain


def entry(place, action):
    """One set of a plan, as two cells: the set and the action there."""
    where = plain(f"set {place.number} {place.name}").rstrip()
    if action is None:
        return where, "-"
    return where, plain(f"{action} {place.actions[action - 1]}").rstrip()


def plan_rows(game, names, side, plan):
    """One row of cells for each set of the player: player, set, action."""
    player = plain(names[side - 1])
    if not plan:
        return [(player, "no set", "")]
    return [(player, *entry(place, action)) for place, action in zip(game.sets[side], plan)]


def pair_lines(game, names, pair):
    """Both plans of a pair in columns, a line for each set."""
    return in_columns(plan_rows(game, names, 1, pair.one) + plan_rows(game, names, 2, pair.two), "    ")


def in_columns(rows, indent=""):
    """The lines of a table: each column as wide as its widest cell."""
    rows = list(rows)
    widths = [max(map(len, column)) for column in zip(*rows)]
    return [(indent + "  ".join(cell.ljust(width) for cell, width in zip(row, widths))).rstrip() for row in rows]
