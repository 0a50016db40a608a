"""Tries corr-at and the module corr_game: points and distributions worked out by hand, gains against the definitions, where the program is
found, and the notebook. Parts of checks/contrib, which runs them. Chicken pays (0, 0), (7, 2), (2, 7), (6, 6) after DD, DC, CD, CC."""
import json
import random
import re
import shutil
import subprocess
import sys
import tempfile
from fractions import Fraction
from itertools import product
from pathlib import Path

import corr_game
from corr_gains import gaining, gains
from corr_mixture import mixed, shares_of
from corr_report import NOTIONS, Corner, Pair
from definitions import plays
from picture_tests import ROOT, SAMPLES, hull
from scripts import script
from tool_tests import counted, drawn_plan, few, games, text_of

TOOL = ROOT / "contrib" / "corr-at"
CHICKEN, COIN, STEPS = (SAMPLES / f"{name}.efg" for name in ("chicken", "coin", "steps"))
PAYS = [[(0, 0), (7, 2)], [(2, 7), (6, 6)]]


def run(*words, text="", tool=TOOL, path=None):
    """What corr-at writes to both its outputs, and its status."""
    more = {"env": {"PATH": path}} if path is not None else {}
    way = [sys.executable, str(tool), *map(str, words)]
    ended = subprocess.run(way, input=text.encode(), capture_output=True, check=False, **more)
    return ended.stdout.decode(), ended.stderr.decode(), ended.returncode


def at(game, *words):
    """The same with the sample's own report."""
    return run(game, *words, "--report", game.with_suffix(".report"))


# Points

MIDDLE = """\
efce: Row gets 9/2 and Column 9/2 by 1/2 of corner 0 (7, 2) and 1/2 of corner 2 (2, 7)
  weight 1 of 2, probability 1/2 (0.5)
    Row     set 1  1 D
    Column  set 1  2 C
  weight 1 of 2, probability 1/2 (0.5)
    Row     set 1  2 C
    Column  set 1  1 D
  node  path             probability  payoffs
  3     Row D, Column C  1/2 (0.5)    (7, 2)
  5     Row C, Column D  1/2 (0.5)    (2, 7)
  with probability 0: 2 of 4 terminal nodes
  probabilities, Row down and Column across
       1 D  2 C
  1 D  0    1/2
  2 C  1/2  0
"""
# (3, 0) comes of TT with LL; the other corner of the EFCE is half on TT and half on MM, each with LL or RR.
COIN_TOP = """\
efce: the most of 2 times Row's payoff plus Column's is 6: Row gets 3 and Column 0 at corner 0
  weight 1 of 1, probability 1
    Row     set 1 heads  1 T
    Row     set 2 tails  1 T
    Column  set 1 heads  1 L
    Column  set 2 tails  1 L
  node  path                           probability  payoffs
  3     chance heads, Row T, Column L  1/2 (0.5)    (3, 0)
  13    chance tails, Row T, Column L  1/2 (0.5)    (3, 0)
  with probability 0: 8 of 10 terminal nodes
"""
# (1, 0) is paid for stop, (-1/3, 4/3) for 1 of 3 times (-1, 2) and 2 of 3 times (0, 1). At 1/3 and 2/3 each has a half.
STEPS_HALF = """\
efce: not answered (toowide)
efcce: there is no efcce
nfcce: Ann gets 1/3 and Bob 2/3 by 1/2 of corner 0 (1, 0) and 1/2 of corner 1 (-1/3, 4/3)
  weight 3 of 6, probability 1/2 (0.5)
    Ann  set 7 start  1 stop
    Ann  set 2 later  -
    Bob  set 3        2 r
  weight 1 of 6, probability 1/6 (\u22480.1667)
    Ann  set 7 start  2 go
    Ann  set 2 later  1 a "b"
    Bob  set 3        1 l
  weight 2 of 6, probability 1/3 (\u22480.3333)
    Ann  set 7 start  2 go
    Ann  set 2 later  2
    Bob  set 3        1 l
"""


def texts():
    yield "the middle of two corners", at(CHICKEN, "9/2", "4.5", "--notion", "efce", "--table"), (MIDDLE, "", 0)
    yield "weights", at(COIN, "--weights", "2", "1", "--notion", "efce", "--table"), (COIN_TOP, "", 0)
    yield "sets that aren't reached, notions without a polygon", at(STEPS, "1/3", "2/3"), (STEPS_HALF, "", 1)
    sentence = MIDDLE.split("\n")[0]
    again = [f"{sentence.replace('efce', notion)}\n  by the same distribution as under efce\n" for notion in NOTIONS[1:]]
    yield "a distribution that comes again", at(CHICKEN, "9/2", "9/2", "--table"), (MIDDLE + "".join(again), "", 0)


# For Chicken's EFCE: 13 * 7 + 7 * 2 = 13 * 21/4 + 7 * 21/4 = 105, and 17 * 2 + 8 * 7 = 20 * 18/5 + 5 * 18/5 = 90.
OUTSIDE = [
    ("6", "6", "more than 105 in 13 times Row's payoff plus 7 times Column's", "120"),
    ("5.3", "21/4", "more than 105 in 13 times Row's payoff plus 7 times Column's", "2113/20"),
    ("5", "11/2", "more than 105 in 7 times Row's payoff plus 13 times Column's", "213/2"),
    ("3", "3", "less than 90 in 17 times Row's payoff plus 8 times Column's", "75"),
    ("10", "10", "Row more than 7", "10"),
    ("-1/2", "3", "Row less than 2", "-1/2"),
    ("4", "+7.5", "Column more than 7", "15/2"),
]
# Weights, the sentence's beginning, and the corner.
DIRECTIONS = [
    ("1", "1", "the most of Row's payoff plus Column's is 21/2", 1, (Fraction(21, 4), Fraction(21, 4))),
    ("-1", "-.5", "the least of Row's payoff plus 1/2 times Column's is 27/5", 3, (Fraction(18, 5), Fraction(18, 5))),
    ("1", "0", "the most of Row's payoff is 7", 0, (7, 2)),
    ("0", "-2", "the least of 2 times Column's payoff is 4", 0, (7, 2)),
    ("2", "-1", "the most of 2 times Row's payoff minus Column's is 12", 0, (7, 2)),
    ("-1", "3/2", "the most of 3/2 times Column's payoff minus Row's is 17/2", 2, (2, 7)),
]


def sentences():
    for x, y, said, here in OUTSIDE:
        wanted = f"efce: excluded: no efce gives {said}, and this point would give {here}\n"
        yield f"outside: {x} {y}", at(CHICKEN, x, "--notion", "efce", y), (wanted, "", 1)


def directions():
    for first, second, said, k, point in DIRECTIONS:
        out, err, status = at(CHICKEN, "--notion=efce", "--weights", first, second)
        wanted = f"efce: {said}: Row gets {point[0]} and Column {point[1]} at corner {k}"
        yield f"towards {first} {second}", (out.split("\n")[0], err, status), (wanted, "", 0)
    tied = "Row gets 3/2 and Column 3/8 at corner 2; also at corner 3 (3/2, 0) and between the two"
    came = at(COIN, "--weights", "-1", "0", "--notion", "efcce")[0].split("\n")[0]
    yield "two corners are best", came, f"efcce: the least of Row's payoff is 3/2: {tied}"
    # The coin's EFCE is a line: (9/4, 0) is its middle, and (5/2, 1/2) lies under the NFCCE alone, at its corner 1.
    line = at(COIN, "9/4", "0", "--notion", "efce")[0].split("\n")[0]
    yield "on a line", line, "efce: Row gets 9/4 and Column 0 by 1/2 of corner 0 (3, 0) and 1/2 of corner 1 (3/2, 0)"
    nested = [line for line in at(COIN, "5/2", "1/2")[0].split("\n") if line[:1] > " "]
    less = "{0}: excluded: no {0} gives Column more than {1}, and this point would give 1/2".format
    wanted = [less("efce", 0), less("efcce", "3/8")]
    yield "reached under the coarse notion alone", nested, [*wanted, "nfcce: Row gets 5/2 and Column 1/2 at corner 1"]


STATUSES = [
    (0, CHICKEN, ["7", "2"]),
    (1, CHICKEN, ["7", "3"]),
    (1, COIN, ["5/2", "3/8"]),
    (0, COIN, ["5/2", "3/8", "--notion", "efcce"]),
    (3, STEPS, ["1", "0", "--notion", "efce"]),
    (1, STEPS, ["1", "0", "--notion", "efcce"]),
    (0, STEPS, ["1", "0", "--notion", "nfcce"]),
    (1, STEPS, ["1", "0"]),
    (3, STEPS, ["--weights", "1", "0", "--notion", "efce"]),
]
# What is refused, with the status.
WRONG = [
    (64, [CHICKEN], "give one of these: a point X Y, --weights A B, --gains FILE"),
    (64, [CHICKEN, "1"], "give one of these: a point X Y, --weights A B, --gains FILE"),
    (64, [CHICKEN, "1", "2", "--weights", "1", "1"], "give one of these: a point X Y, --weights A B, --gains FILE"),
    (64, [CHICKEN, "1,5", "2"], "'1,5' isn't a number: write 9, 9/2 or 4.5"),
    (64, [CHICKEN, "1/0", "2"], "'1/0' isn't a number: write 9, 9/2 or 4.5"),
    (64, [CHICKEN, "1", "9" * 61], f"'{'9' * 39}\u2026' isn't a number: write 9, 9/2 or 4.5"),
    (64, [CHICKEN, "--weights", "0", "0.0"], "the weights 0 and 0 name no direction"),
    (64, [CHICKEN, "--gains", "-", "--report", "-"], "--gains needs no report"),
    (64, ["-", "1", "2", "--report", "-"], "standard input can be read only once: give one of the two as a file"),
    (72, [SAMPLES, "1", "2"], f"{SAMPLES}: Is a directory"),
    (2, [SAMPLES / "chicken.report", "1", "2"], None),
    (2, [COIN, "1", "2", "--report", SAMPLES / "chicken.report"], None),
    (2, [CHICKEN, "1", "2", "--report", SAMPLES / "coin.efg"], None),
]


def statuses():
    for wanted, game, words in STATUSES:
        yield f"status of {game.stem} {' '.join(words)}", at(game, *words)[1:], ("", wanted)


def wrong():
    for status, words, said in WRONG:
        out, err, came = run(*words, text=text_of("chicken.efg"))
        name = f"refused: {' '.join(map(str, words))}"
        yield name, (out, came, err.count("\n"), said is None or err == f"corr-at: {said}\n"), ("", status, 1, True)


def gap():
    # Sides that don't go round the corners: those of 13 7 and 7 13 and all others but the first are gone.
    report = text_of("chicken.report")
    block = report[: report.index("notion efcce")]
    only = re.sub(r"sides 12\n(side 1 0.*\n.*\n.*\n)(?s:.*)", r"sides 1\n\1end\n", block)
    out, err, status = run(CHICKEN, "6", "6", "--report", "-", text=only)
    said = "corr-at: the sides of efce in the report don't go round its corners: corr check says more\n"
    yield "sides with a gap", (out, err, status), ("", said, 2)


# Gains

THIRD = "weight 1\none 1\ntwo 2\nweight 1\none 2\ntwo 1\nweight 1\none 2\ntwo 2\n"
# Told C a player meets C or D with equal odds: (2 + 6) / 2 = 4, and D would give (0 + 7) / 2. Told D the other has C: 7, and C gives 6.
# Before being told: 5, as (7 + 2 + 6) / 3; D gives (7 + 0 + 7) / 3, and C gives (6 + 2 + 6) / 3.
THIRD_GAINS = """\
Row gets 5 and Column 5 where both follow
efce: an equilibrium: nobody gains by leaving
  player  leaves at  when told  probability    following  best deviation  gain  by
  Row     set 1      1 D        1/3 (\u22480.3333)  7          6               -1    2 C
  Row     set 1      2 C        2/3 (\u22480.6667)  4          7/2             -1/2  1 D
  Column  set 1      1 D        1/3 (\u22480.3333)  7          6               -1    2 C
  Column  set 1      2 C        2/3 (\u22480.6667)  4          7/2             -1/2  1 D
efcce: an equilibrium: nobody gains by leaving
  player  leaves at  when told  probability  following  best deviation  gain  by
  Row     set 1                 1            5          14/3            -1/3  1 D
  Column  set 1                 1            5          14/3            -1/3  1 D
nfcce: an equilibrium: nobody gains by leaving
  player  leaves at    when told  probability  following  best deviation  gain  by
  Row     before play             1            5          14/3            -1/3  1 D at set 1
  Column  before play             1            5          14/3            -1/3  1 D at set 1
"""
# Half DC and half DD: Row is always told D, gets 7/2, and C would give (6 + 2) / 2 = 4. Column told C gets 2 and would get 0 by D;
# told D Column gets 0 and would get 2 by C.
HALVES = "weight 2\none 1\ntwo 2\nweight 2\none 1\ntwo 1"
HALVES_GAINS = """\
Row gets 7/2 and Column 1 where both follow
efce: no equilibrium: Column gains 2 by leaving at set 1 when told 1 D
  player  leaves at  when told  probability  following      best deviation  gain  by
  Row     set 1      1 D        1            7/2            4               1/2   2 C
  Row     set 1      2 C        0            never reached
  Column  set 1      1 D        1/2 (0.5)    0              2               2     2 C
  Column  set 1      2 C        1/2 (0.5)    2              0               -2    1 D
"""
# Ann goes, then plays her second action where Bob plays l: (0, 1). By r she gets 1/2, by stop 1. Bob gets 1 by l and 1/2 by r.
GOES = "weight 1\none 2 2\ntwo 1\n"
GOES_GAINS = """\
Ann gets 0 and Bob 1 where both follow
efce: no equilibrium: Ann gains 1 by leaving at set 7 start when told 2 go
  player  leaves at    when told  probability  following      best deviation  gain  by
  Ann     set 7 start  1 stop     0            never reached
  Ann     set 7 start  2 go       1            0              1               1     1 stop
  Ann     set 2 later  1 a "b"    0            never reached
  Ann     set 2 later  2          1            0              -1              -1    1 a "b"
  Bob     set 3        1 l        1            1              1/2             -1/2  2 r
  Bob     set 3        2 r        0            never reached
"""
ALONE = 'EFG 2 R "" { "A" "B" } p "" 1 1 { "go" } 0 t "" 1 { 3 -1 }'
ALONE_GAINS = """\
A gets 3 and B -1 where both follow
efce: an equilibrium: nobody gains by leaving
  player  leaves at  when told  probability  following  best deviation  gain  by
  A       set 1      1 go       1            3          none
"""
UNPLANNED = [
    ("weight 1\none 3\ntwo 1\n", "pair 1 of FILE has action 3 at set 1 of player 1, of 2 actions"),
    (THIRD + "weight 1\none 1\ntwo -\n", "pair 4 of FILE has no action at set 1 of player 2, where its plan leads"),
    ("weight 0\none 1\ntwo 1\n", "line 1 of FILE isn't a weight, but 'weight 0'"),
    ("weight 1\none 1\n", "FILE ends before line 3, a plan of player two"),
    ("", "line 1 of FILE isn't a weight, but ''"),
]


def with_file(text, *words):
    """What corr-at says of a file, whose path is written as FILE."""
    with tempfile.NamedTemporaryFile("w", suffix=".x") as kept:
        kept.write(text)
        kept.flush()
        out, err, status = run(*(kept.name if word == "FILE" else word for word in words))
        return out, err.replace(kept.name, "FILE"), status


def gains_by_hand():
    yield "a third each", with_file(THIRD, CHICKEN, "--gains", "FILE"), (THIRD_GAINS, "", 0)
    yield "halves", with_file(HALVES, CHICKEN, "--gains", "FILE", "--notion", "efce"), (HALVES_GAINS, "", 1)
    yield "a plan goes on", with_file(GOES, STEPS, "--gains", "FILE", "--notion", "efce"), (GOES_GAINS, "", 1)
    yield "a player can but follow", run_alone(), (ALONE_GAINS, "", 0)
    yield "from standard input", run(CHICKEN, "--gains", "-", text=THIRD), (THIRD_GAINS, "", 0)
    table = with_file(THIRD, CHICKEN, "--gains", "FILE", "--table", "--notion", "nfcce")[0].split("\n")
    yield "the table of a given distribution", [line.split() for line in table[8:10]], [["1", "D", "0", "1/3"], ["2", "C", "1/3", "1/3"]]
    for text, said in UNPLANNED:
        yield f"no distribution: {said}", with_file(text, CHICKEN, "--gains", "FILE"), ("", f"corr-at: {said}\n", 2)


def run_alone():
    with tempfile.TemporaryDirectory() as place:
        game, pairs = Path(place) / "alone.efg", Path(place) / "pairs"
        game.write_text(ALONE)
        pairs.write_text("weight 5\none 1\ntwo\n")
        return run(game, "--gains", pairs, "--notion", "efce")


def gains_by_definition():
    """Distributions that are drawn in the examples: each trigger's gain is the greatest over all full choices."""
    draw = random.Random(7)
    tried = [(*each, notion) for each in games() if few(each[2], 3000) for notion in NOTIONS * 2]
    yield "distributions that are tried", len(tried) >= 60, True
    for name, tree, game, notion in tried:
        pairs = [(draw.randrange(1, 5), drawn_plan(draw, game, 1), drawn_plan(draw, game, 2)) for _ in range(3)]
        total = sum(weight for weight, _, _ in pairs)
        corner = Corner(None, total, [Pair(weight, counted(one), counted(two)) for weight, one, two in pairs])
        came = gains(tree, corner, notion)
        wanted = by_definition(game, notion, pairs, 1) + by_definition(game, notion, pairs, 2)
        yield f"{name}: gains under {notion}", [in_units(gain, tree, total) for gain in came], wanted
        yield f"{name}: equilibrium under {notion}", not gaining(came), game.improves(notion, pairs) is None


def in_units(gain, tree, total):
    """What a trigger gains over all, in scaled payoffs times the weights; 0 where following is best."""
    if gain.deviating is None:
        return 0
    return max(0, (gain.deviating - gain.following) * gain.odds * total * tree.scales[gain.trigger.player - 1])


def by_definition(game, notion, pairs, side):
    """The same by going through all full choices; where no plan meets the trigger they are all the same."""
    followed, found = sum(weight * game.pay(side, one, two) for weight, one, two in pairs), []
    choices = list(product(*map(range, game.actions[side])))
    for top, sequence in game.triggers(notion, side):
        is_met = any(plays(pair[side], sequence) for pair in pairs)
        left = [deviated(game, side, top, sequence, full, pairs) for full in (choices if is_met else choices[:1])]
        found.append(max(0, max(left) - followed))
    return found


def deviated(game, side, top, sequence, full, pairs):
    """What a player gets in all who leaves at a trigger for a full choice."""
    total = 0
    for weight, one, two in pairs:
        mine = (one, two)[side - 1]
        if plays(mine, sequence):
            mine = tuple(full[k] if top is None or game.is_below(side, k, top) else action for k, action in enumerate(mine))
        total += weight * game.pay(side, *((mine, two) if side == 1 else (one, mine)))
    return total


# Mixtures


def is_within(points, point):
    """Whether a point lies in the hull of some points: whether it is no corner with them, or is one of them."""
    return point in points or point not in hull([*points, point])


def drawn_points(number):
    """The corners of a polygon, one of them, and points in its range."""
    draw = random.Random(number)
    points = hull([(Fraction(draw.randrange(12), draw.randrange(1, 4)), Fraction(draw.randrange(12))) for _ in range(2 + number % 9)])
    return [(points, point) for point in [points[0], *((Fraction(draw.randrange(12)), Fraction(draw.randrange(24), 2)) for _ in range(8))]]


def mixtures():
    tried = [each for number in range(150) for each in drawn_points(number)]
    yield "points that lie within", sum(is_within(*each) for each in tried) > 300, True
    for number, (points, point) in enumerate(tried):
        shares, wanted = shares_of(points, point), is_within(points, point)
        yield f"whether polygon {number} has its point", shares is not None, wanted
        yield f"the mixture of polygon {number}", shares and wrong_mixture(points, point, shares), [] if wanted else None


def wrong_mixture(points, point, shares):
    """What isn't right in a mixture of corners."""
    sums = [sum(share * points[k][axis] for k, share in shares) for axis in (0, 1)]
    faults = {"share": any(share <= 0 for _, share in shares), "count": len(shares) > 3, "sum": sum(share for _, share in shares) != 1}
    return [name for name, is_wrong in {**faults, "point": tuple(sums) != tuple(point)}.items() if is_wrong]


def joined_pairs():
    """Pairs that two corners have in common are one: 1/3 of half a and half b, 2/3 of b alone."""
    a, b = Pair(1, [1], [2]), Pair(1, [2], [1])
    corners = [Corner((0, 0), 2, [a, b]), Corner((3, 6), 1, [b])]
    came = mixed(corners, [(0, Fraction(1, 3)), (1, Fraction(2, 3))])
    yield "pairs that come twice", came, Corner((2, 4), 6, [Pair(1, [1], [2]), Pair(5, [2], [1])])


# The program

STAND_IN = """#!/bin/sh
[ "$1 $2 $3" = "solve --notion efce" ] && echo "refused Players 3" && exit 2
[ "$1" = check ] && echo "no scale" && exit 1
[ "$1" = solve ] && exec cat "{report}"
exit 70
"""
FAILING = "#!/bin/sh\necho 'corr: there was not enough memory' >&2\nexit 70\n"


def laid(folder, program, text):
    """The tools in a folder, and a stand-in for the program."""
    shutil.copytree(ROOT / "contrib", folder, ignore=shutil.ignore_patterns("__pycache__"))
    program.parent.mkdir(parents=True, exist_ok=True)
    program.write_text(text)
    program.chmod(0o755)
    return folder / "corr-at"


def programs():
    with tempfile.TemporaryDirectory() as made:
        place, stand_in = Path(made), STAND_IN.format(report=SAMPLES / "chicken.report")
        wanted = at(CHICKEN, "9/2", "9/2")
        near = laid(place / "project" / "contrib", place / "project" / "corr", stand_in)
        yield "the program next to the tools' folder", run(CHICKEN, "9/2", "9/2", tool=near), wanted
        installed = laid(place / "prefix" / "share" / "corr", place / "prefix" / "bin" / "corr", stand_in)
        yield "the installed program", run(CHICKEN, "9/2", "9/2", tool=installed), wanted
        other = laid(place / "a" / "b" / "contrib", place / "on the path" / "corr", stand_in)
        path = f"{place / 'on the path'}:/usr/bin:/bin"
        yield "the program on the path", run(CHICKEN, "9/2", "9/2", tool=other, path=path), wanted
        said = "corr-at: the program corr is missing: it is neither next to the tools nor on the path\n"
        yield "no program", run(CHICKEN, "9/2", "9/2", tool=other, path=str(place)), ("", said, 69)
        refused = "corr-at: corr answered 'refused Players 3'; corr-where shows the place\n"
        yield "a game that is refused", run(CHICKEN, "1", "1", "--notion", "efce", tool=near), ("", refused, 2)
        yield "a game from standard input", run("-", "9/2", "9/2", tool=near, text=text_of("chicken.efg")), wanted
        (place / "project" / "corr").write_text(FAILING)
        yield "a program that fails", run(CHICKEN, "1", "1", tool=near), ("", "corr-at: corr: there was not enough memory\n", 70)


# The module

ONE = """\
corr-report 1
scale 4 1
notion efcce found
corners 1
corner 0 21/4 -2 total 2 pairs 1
weight 2
one 1
two
sides 1
side 3 -1 corner 0 den 1
first 21
second -2
end
"""
ONE_GAME = 'EFG 2 R "Gr\u00f6\u00dfe" { "A \\"1\\"" "" }\np "root" 1 7 { "x" "y" } 0 t "" 1 { 5.25, -2 } t "" 2 { 0, 0 }\n'
# 3 of a scaled payoff is 12 of a payoff: 12 * 21/4 - 1 * -2 = 65.
ONE_JSON = {
    "title": "Gr\u00f6\u00dfe",
    "players": ['A "1"', "player 2"],
    "notions": [
        {
            "notion": "efcce",
            "kind": "found",
            "corners": [
                {
                    "payoffs": ["21/4", "-2"],
                    "total": "2",
                    "pairs": [
                        {
                            "weight": "2",
                            "probability": "1",
                            "one": [{"set": "7", "set_name": "root", "action": 1, "action_name": "x"}],
                            "two": [],
                        }
                    ],
                }
            ],
            "sides": [{"weights": ["12", "-1"], "most": "65", "corner": 0}],
        }
    ],
}


def results():
    report = corr_game.load(text_of("chicken.report"), CHICKEN)
    corner = report["efce"].corners[1]
    wanted = ((7, 2), (Fraction(21, 4), Fraction(21, 4)), (2, 7), (Fraction(18, 5), Fraction(18, 5)))
    yield "a polygon's points", report["efce"].points, wanted
    yield "a corner's odds", [pair.probability for pair in corner.pairs], [Fraction(1, 4), Fraction(1, 4), Fraction(1, 2)]
    yield "a corner in words", str(corner).split("\n")[-1], "  1/2: set 1: 2 C | set 1: 2 C"
    yield "a side", report["efce"].sides[1], corr_game.Side((13, 7), Fraction(105), 0)
    one = corr_game.load(ONE, ONE_GAME)
    yield "JSON in the order of its keys", one.to_json(), json.dumps(ONE_JSON, ensure_ascii=False)
    steps = corr_game.load(SAMPLES / "steps.report", text_of("steps.efg"))
    yield "kinds", [each.kind for each in steps.polygons.values()], ["toowide", "empty", "found"]
    yield "a set that isn't reached", str(steps["nfcce"].corners[0].pairs[0]), "1: set 7 start: 1 stop, set 2 later: - | set 3: 2 r"
    yield "a report of another game", raised(corr_game.load, ONE, CHICKEN)[0], "Bad"
    yield "a file that isn't there", raised(corr_game.load, ONE, "no such file")[0], "FileNotFoundError"
    said = "the notions are efce, efcce, nfcce, and not nash"
    yield "an unknown notion", raised(corr_game.solve, CHICKEN, ["nash"]), ("ValueError", said)
    yield "unknown labels", raised(report.picture, labels="all")[0], "ValueError"


def raised(call, *given, **more):
    """The name of what is raised, and its line."""
    try:
        call(*given, **more)
    except (ValueError, OSError, corr_game.Bad) as fault:
        return type(fault).__name__, str(fault)
    return None


def drawings():
    """The module's pictures are those of corr-plot."""
    plot = ROOT / "contrib" / "corr-plot"
    for name in ("chicken", "coin", "steps"):
        game, report = SAMPLES / f"{name}.efg", SAMPLES / f"{name}.report"
        loaded = corr_game.load(report, game)
        yield f"the picture of {name}", loaded._repr_svg_(), run("--game", game, report, tool=plot)[0]
        words = ["--payoffs", "--stretch", "--title", "", "--labels", "decimal", "--no-legend", "--width", "300", "--font-size", "20"]
        asked = {"title": "", "stretch": True, "labels": "decimal", "legend": False, "width": 300, "size": 20, "payoffs": True}
        yield f"the picture of {name} as asked", loaded.picture(**asked), run(*words, "--game", game, report, tool=plot)[0]
    unfound = corr_game.load(text_of("steps.report").replace("notion nfcce found", "end\nnotion nfcce found"), STEPS)
    yield "no picture without a polygon", unfound._repr_svg_(), None


def bimatrices():
    first, second = ([[pair[k] for pair in row] for row in PAYS] for k in (0, 1))
    came = corr_game.from_bimatrix(first, second, rows=["D", "C"], columns=["D", "C"], title="Chicken")
    yield "Chicken of its payoffs", came, text_of("chicken.efg")
    mixed_kinds = corr_game.from_bimatrix([[Fraction(1, 3), 0.1, "2/4"]], [[-1, 1e-7, "-.5"]], row='a "b"', column="\u00e9")
    wanted = 'EFG 2 R "" { "a \\"b\\"" "\u00e9" }\n""\np "" 1 1 "" { "1" } 0\np "" 2 1 "" { "1" "2" "3" } 0\n'
    wanted += 't "" 1 "" { 1/3, -1 }\nt "" 2 "" { 0.1, 0.0000001 }\nt "" 3 "" { 2/4, -.5 }\n'
    yield "fractions, decimals and words", mixed_kinds, wanted
    for number, (A, B, names) in enumerate(NO_MATRICES):
        yield f"no matrices, {number}", (raised(corr_game.from_bimatrix, A, B, **names) or [None])[0], "ValueError"


NO_MATRICES = [
    ([], [], {}),
    ([[]], [[]], {}),
    ([[1, 2]], [[1]], {}),
    ([[1], [2]], [[1]], {}),
    ([[1, 2], [3]], [[1, 2], [3]], {}),
    ([["x"]], [[1]], {}),
    ([[float("nan")]], [[1]], {}),
    ([["1/0"]], [[1]], {}),
    ([[1]], [[1]], {"rows": ["a", "b"]}),
    ([[1]], [[1]], {"title": "C:\\"}),
]

# Run in a folder with a stand-in for the program: a refusal with its place, a verdict, two notions in one report.
SCRIPT = """
import sys
sys.dont_write_bytecode = True
sys.path.insert(0, sys.argv[1])
import corr_game
game = open(sys.argv[2]).read()
try:
    corr_game.solve(game, "efce")
except corr_game.Refused as refused:
    print(refused.line, [(place.line, place.column, place.said) for place in refused.places], refused.status)
    print(refused)
verdict = corr_game.check(corr_game.solve(game), sys.argv[2])
print(verdict, bool(verdict), bool(corr_game.Verdict("yes")))
print(repr(corr_game.solve(game)))
"""
POINTS = "(7, 2) (21/4, 21/4) (2, 7) (18/5, 18/5)"
SCRIPT_SAYS = f"""\
refused Players 3 [(1, 19, 'refused Players 3')] 2
line 1, column 19: refused Players 3
  EFG 2 R "Chicken" {{ "Row" "Column" }}
                    ^
Verdict('no scale') False True
<Report of Chicken: efce {POINTS}; efcce {POINTS}; nfcce {POINTS}>
"""


def module_and_program():
    with tempfile.TemporaryDirectory() as made:
        place = Path(made)
        folder = laid(place / "contrib", place / "corr", STAND_IN.format(report=SAMPLES / "chicken.report")).parent
        (place / "try.py").write_text(SCRIPT)
        yield "the module with a program", run(folder, CHICKEN, tool=place / "try.py"), (SCRIPT_SAYS, "", 0)
        (place / "corr").unlink()
        text = "import sys; sys.path.insert(0, sys.argv[1]); import corr_game\ntry:\n    corr_game.solve(sys.argv[2])\n"
        (place / "try.py").write_text(text + "except corr_game.ProgramMissing as missing:\n    print(missing.status)\n")
        yield "the module without one", run(folder, CHICKEN, tool=place / "try.py", path=str(place)), ("69\n", "", 0)


def notebook():
    yield from script("checks/notebook").tests()


PARTS = (texts, sentences, directions, statuses, wrong, gap, gains_by_hand, gains_by_definition, mixtures, joined_pairs, programs)
PARTS += (results, drawings, bimatrices, module_and_program, notebook)
