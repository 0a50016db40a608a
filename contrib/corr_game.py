"""Correlated equilibria of two-player extensive games in Python: the program `corr` solves and checks, in exact fractions.

The folder of this module has to be on Python's path: `contrib` in the project, `share/corr` below the prefix where corr is installed.

    import sys
    sys.path.insert(0, "/usr/local/share/corr")
    from corr_game import check, from_bimatrix, solve

    chicken = from_bimatrix([[0, 7], [2, 6]], [[0, 2], [7, 6]], rows=["D", "C"], columns=["D", "C"], title="Chicken")
    report = solve(chicken)
    report["efce"].points             # the corners of a polygon: ((Fraction(7, 1), Fraction(2, 1)), ..)
    print(report["efce"].corners[1])  # a corner with a distribution that reaches it, in the game's names
    print(report.to_json(indent=2))   # fractions as strings, "21/4"
    report                            # in a notebook: the picture of all polygons
    check(report, chicken)            # Verdict('yes'), what the program says of the report

A game is a text in Gambit's EFG format or the path of a file with one: a str that has a double quote or a line end is a text. `solve`
raises `Refused` where the program refuses a game, with the program's line and its places in the text, and `ProgramMissing` where there
is no program. Whether a report is true is for `check` to say; `solve` doesn't call it.
"""
import json
import os
from dataclasses import dataclass
from decimal import Decimal
from fractions import Fraction
from numbers import Rational
from typing import Dict, Optional, Tuple

import corr_picture
import corr_command
from corr_inputs import game_and_tree, want_own
from corr_mixture import bounds
from corr_payoffs import payoffs_of
from corr_places import line_and_column, marked
from corr_command import ProgramMissing, Refused
from corr_refusals import places
from corr_report import NOTIONS, NUMBER, Bad, plain, player_names, read_report

__all__ = ["Bad", "Choice", "Corner", "Pair", "Place", "Polygon", "ProgramMissing", "Refused", "Report", "Side", "Verdict"]
__all__ += ["check", "from_bimatrix", "load", "solve"]

LABELS = (None, "exact", "decimal", "number", "none")


# Results


@dataclass(frozen=True)
class Choice:
    """What a plan says at an information set: an action, counted from 1, or None where the plan never gets there."""

    player: str
    set: str  # its number in the file
    set_name: str
    action: Optional[int]
    action_name: str

    def __str__(self):
        said = "-" if self.action is None else f"{self.action} {self.action_name}".rstrip()
        return plain(f"set {self.set} {self.set_name}".rstrip() + f": {said}")


@dataclass(frozen=True)
class Pair:
    """A plan of each player, which the mediator recommends with this weight of the corner's total, or with this probability."""

    weight: int
    probability: Fraction
    one: Tuple[Choice, ...]
    two: Tuple[Choice, ...]

    def __str__(self):
        plans = (", ".join(map(str, plan)) or "no set" for plan in (self.one, self.two))
        return f"{self.probability}: {' | '.join(plans)}"


@dataclass(frozen=True)
class Corner:
    """A corner of a polygon, as the expected payoffs of both, and an equilibrium that reaches it."""

    payoffs: Tuple[Fraction, Fraction]
    total: int
    pairs: Tuple[Pair, ...]

    def __str__(self):
        return "\n".join([f"({self.payoffs[0]}, {self.payoffs[1]})", *(f"  {pair}" for pair in self.pairs)])


@dataclass(frozen=True)
class Side:
    """A side: no equilibrium gives more than `most` in weights[0] times the first payoff plus weights[1] times the second."""

    weights: Tuple[int, int]
    most: Fraction
    corner: int  # the number of a corner that gives as much


@dataclass(frozen=True)
class Polygon:
    """The answer under one notion. Only one of kind "found" has corners and sides; the other kinds are "empty" and "toowide"."""

    notion: str
    kind: str
    corners: Tuple[Corner, ...]
    sides: Tuple[Side, ...]

    @property
    def points(self):
        """The corners' payoffs, counter-clockwise."""
        return tuple(corner.payoffs for corner in self.corners)


@dataclass(frozen=True)
class Report:
    """The polygons of a game by notion, from strict to coarse; and the texts of the report and of the game."""

    title: str
    players: Tuple[str, str]
    polygons: Dict[str, Polygon]
    text: str
    game: str

    def __getitem__(self, notion):
        return self.polygons[notion]

    def __repr__(self):
        said = "; ".join(f"{each.notion} {' '.join(map(_point_text, each.points)) or each.kind}" for each in self.polygons.values())
        return f"<Report of {self.title or 'a game'}: {said}>"

    def to_json(self, indent=None):
        """The report as JSON with its keys in one order. Exact numbers, whole ones too, are strings like "21/4"."""
        notions = [_as_json(polygon) for polygon in self.polygons.values()]
        return json.dumps({"title": self.title, "players": self.players, "notions": notions}, indent=indent, ensure_ascii=False)

    def picture(self, title=None, stretch=False, labels=None, legend=True, width=None, size=corr_picture.SIZE, payoffs=False):
        """The picture that corr-plot draws, as the text of an SVG file. The options are those of corr-plot."""
        if labels not in LABELS:
            raise ValueError(f"labels are {', '.join(filter(None, LABELS))} or None, and not {labels!r}")
        tree = game_and_tree(_encoded(self.game), None)[1] if payoffs else None
        title = plain(self.title if title is None else title)
        asked = corr_picture.Asked(title, [plain(name) for name in self.players], stretch, labels, legend, width, size)
        return corr_picture.picture(read_report(_encoded(self.text))[0].blocks, payoffs_of(tree) if payoffs else None, asked)

    def _repr_svg_(self):
        return self.picture() if any(polygon.corners for polygon in self.polygons.values()) else None


@dataclass(frozen=True)
class Verdict:
    """What the program's checker says of a report. It is true where the line is "yes"."""

    line: str

    def __bool__(self):
        return self.line == "yes"

    def __repr__(self):
        return f"Verdict({self.line!r})"


@dataclass(frozen=True)
class Place:
    """A place that a refusal names: line and column, counted from 1, what is said of it, perhaps a hint, and the line with a mark."""

    line: int
    column: int
    said: str
    hint: Optional[str]
    text: str


def _point_text(point):
    return f"({point[0]}, {point[1]})"


def _as_json(polygon):
    corners = [
        {"payoffs": _strings(corner.payoffs), "total": str(corner.total), "pairs": [_pair_as_json(pair) for pair in corner.pairs]}
        for corner in polygon.corners
    ]
    sides = [{"weights": _strings(side.weights), "most": str(side.most), "corner": side.corner} for side in polygon.sides]
    return {"notion": polygon.notion, "kind": polygon.kind, "corners": corners, "sides": sides}


def _pair_as_json(pair):
    plans = {name: [_choice_as_json(choice) for choice in plan] for name, plan in (("one", pair.one), ("two", pair.two))}
    return {"weight": str(pair.weight), "probability": str(pair.probability), **plans}


def _choice_as_json(choice):
    return {"set": choice.set, "set_name": choice.set_name, "action": choice.action, "action_name": choice.action_name}


def _strings(numbers):
    return [str(number) for number in numbers]


# Solving and checking


def solve(game, notions=None):
    """The report of a game. `notions` is one of "efce", "efcce" and "nfcce", or some of them; all of them where it is None."""
    data = _bytes(game)
    try:
        if notions is None:
            text = corr_command.solve(data)
        else:
            text = _joined([corr_command.solve(data, notion) for notion in _in_order(notions)])
    except Refused as refused:
        refused.places = _places(refused.line, data)
        raise
    return load(text, data)


def check(report, game):
    """The verdict of the program on a report of a game. The report is a `Report`, or the text or the path of one."""
    data, text = _bytes(game), _encoded(report.text) if isinstance(report, Report) else _bytes(report)
    try:
        return Verdict(corr_command.check(text, data))
    except Refused as refused:
        refused.places = _places(refused.line, text + data if refused.line.startswith("refused Report ") else data)
        raise


def load(report, game):
    """A report that is kept as a text or in a file. One that isn't of the game is refused, and nothing else is verified."""
    text, data = _bytes(report), _bytes(game)
    found, rest = read_report(text)
    own, tree = game_and_tree(data, None)
    want_own(found, own, tree, None)
    polygons = {block.notion: _polygon(block, found.scales, own) for block in found.blocks}
    texts = (given.decode("utf-8", "surrogateescape") for given in (text[: len(text) - len(rest)], data))
    return Report(own.title, player_names(own), polygons, *texts)


def _bytes(given):
    """What is given as a text, or what the file at a path holds."""
    if isinstance(given, bytes):
        return given
    if isinstance(given, str) and ('"' in given or "\n" in given):
        return _encoded(given)
    with open(os.fspath(given), "rb") as file:
        return file.read()


def _encoded(text):
    """The bytes of a text, also where it was read from bytes that aren't UTF-8."""
    return text.encode("utf-8", "surrogateescape")


def _in_order(notions):
    asked = [notions] if isinstance(notions, str) else list(notions)
    unknown = [notion for notion in asked if notion not in NOTIONS]
    if unknown or not asked:
        raise ValueError(f"the notions are {', '.join(NOTIONS)}, and not {unknown[0] if unknown else 'none'}")
    return [notion for notion in NOTIONS if notion in asked]


def _joined(reports):
    """One report from those of several notions: they begin with two lines that are the same, and end with one."""
    lines = [report.splitlines(keepends=True) for report in reports]
    return b"".join(lines[0][:2] + [line for each in lines for line in each[2:-1]] + lines[0][-1:])


def _places(line, data):
    """The places that a refusal names in these bytes; none where it names none."""
    try:
        found = places(line, "the text", data)
    except Bad:
        return ()
    return tuple(Place(*line_and_column(data, each.at), each.said, each.hint, marked(data, each.at)) for each in found)


def _polygon(block, scales, game):
    corners = tuple(Corner(corner.point, corner.total, _pairs(corner, game)) for corner in block.corners)
    sides = tuple(Side(bound.weights, bound.most, bound.corner) for bound in bounds(block, scales))
    return Polygon(block.notion, block.kind, corners, sides)


def _pairs(corner, game):
    plans = ((pair, _plan(game, 1, pair.one), _plan(game, 2, pair.two)) for pair in corner.pairs)
    return tuple(Pair(pair.weight, Fraction(pair.weight, corner.total), one, two) for pair, one, two in plans)


def _plan(game, player, plan):
    name, found = player_names(game)[player - 1], []
    for place, action in zip(game.sets[player], plan):
        found.append(Choice(name, place.number, place.name, action, "" if action is None else place.actions[action - 1]))
    return tuple(found)


# Games that both play unseen


def from_bimatrix(A, B, row="Row", column="Column", rows=None, columns=None, title=""):
    """The text of a game in which both choose at once: A has the payoffs of the row player, B those of the column player, row by row.

    Payoffs are whole numbers, fractions, decimals, or words for these; a float is taken for the decimal that it is printed as. `rows` and
    `columns` are the names of the actions, numbers from 1 where they are left out.
    """
    shape = _shape(A, B)
    rows, columns = (_action_names(names, count) for names, count in zip((rows, columns), shape))
    lines = [f"EFG 2 R {_quoted(title)} {{ {_quoted(row)} {_quoted(column)} }}", '""']
    lines.append(f'p "" 1 1 "" {{ {rows} }} 0')
    for k, pair in enumerate(zip(A, B)):
        lines.append(f'p "" 2 1 "" {{ {columns} }} 0')
        pays = enumerate(zip(*pair), k * shape[1] + 1)
        lines += [f't "" {outcome} "" {{ {_number(one)}, {_number(two)} }}' for outcome, (one, two) in pays]
    return "\n".join(lines) + "\n"


def _shape(A, B):
    """The numbers of rows and columns."""
    widths = {len(each) for matrix in (A, B) for each in matrix}
    if len(A) != len(B) or len(widths) != 1 or not widths.isdisjoint({0}):
        raise ValueError("A and B have to be two matrices of one shape, with a row and a column at least")
    return len(A), widths.pop()


def _action_names(names, count):
    names = [str(k) for k in range(1, count + 1)] if names is None else list(names)
    if len(names) != count:
        raise ValueError(f"{len(names)} names for {count} actions")
    return " ".join(map(_quoted, names))


def _quoted(name):
    """A name as a text of the format, which has no way to end one with a backslash."""
    if name.endswith("\\"):
        raise ValueError(f"a name can't end with a backslash: {name!r}")
    return '"' + name.replace('"', '\\"') + '"'


def _number(value):
    """A payoff as the format writes it."""
    if isinstance(value, Rational):
        return str(Fraction(value))
    if isinstance(value, float):
        value = Decimal(repr(value))
    word = format(value, "f") if isinstance(value, Decimal) else str(value)
    if not NUMBER.fullmatch(word.encode()):
        raise ValueError(f"{value!r} isn't a payoff: give a whole number, a fraction or a decimal")
    return word
