"""Tests of how the tools of contrib/ know a report of another game. What plans pay in a game's tree is compared with the definitions,
which read the game's file by means of their own."""
import random
import subprocess
import sys
import tempfile
from fractions import Fraction
from itertools import product
from pathlib import Path

from corr_payoffs import payoffs_of
from corr_report import Bad, read_game
from corr_tree import Tree
from definitions import Game, plays
from efg import read
from picture_tests import ROOT, SAMPLES, hull

TOOLS = ("corr-plot", "corr-names", "corr-welfare")


def run(tool, *words, given=b""):
    ended = subprocess.run([sys.executable, str(ROOT / "contrib" / tool), *words], input=given, capture_output=True, check=False)
    return ended.stdout.decode(), ended.stderr.decode(), ended.returncode


def text_of(name):
    return (SAMPLES / name).read_text()


# A report of another game


def others():
    """What is changed in a report and in its game, and what the refusal says then. Chicken's corners mix (7, 2), (2, 7) and (6, 6)."""
    pays = "corner {} of {} says {}, and its plans pay {} there".format
    plays_there = "corner {} of nfcce has {} at set 2 of player 1{}".format
    yield "chicken", {}, {"7, 2": "5, 1"}, pays(0, "efce", "(7, 2)", "(5, 1)")
    yield "chicken", {}, {"6, 6": "6, 8"}, pays(1, "efce", "(21/4, 21/4)", "(21/4, 25/4)")
    head = "nfcce found\ncorners 4\ncorner 0 7 "
    yield "chicken", {f"{head}2": f"{head}3"}, {}, pays(0, "nfcce", "(7, 3)", "(7, 2)")
    yield "chicken", {}, {"7, 2": "7, 5/2"}, "it says that player 2's scale is 1, and the game's is 2"
    yield "chicken", {"scale 1 1": "scale 3 1"}, {}, "it says that player 1's scale is 3, and the game's is 1"
    yield "coin", {}, {'"heads" 1/2 "tails" 1/2': '"heads" 1/4 "tails" 3/4'}, "it says that player 1's scale is 2, and the game's is 4"
    yield "coin", {}, {'t "" 1\nt "" 0': 't "" 0\nt "" 0'}, pays(0, "efce", "(3, 0)", "(3/2, 0)")
    yield "steps", {"total 3": "total 4"}, {}, "corner 1 of nfcce has weights that sum to 3, not 4"
    yield "steps", {"one 2 1": "one 2 -"}, {}, plays_there(1, "no action", ", where its plan leads")
    yield "steps", {"one 1 -": "one 1 2"}, {}, plays_there(0, "an action", ", where its plan never leads")
    yield "steps", {"one 2 2": "one 2 3"}, {}, plays_there(1, "action 3", ", of 2 actions")
    yield "steps", {"one 1 -": "one 1"}, {}, "corner 0 of nfcce has a plan of 1 entries for player 1, who has 2 sets"
    yield "steps", {"two 2": "two 2 1"}, {}, "corner 0 of nfcce has a plan of 2 entries for player 2, who has 1 sets"


def changed(text, changes):
    for old, new in changes.items():
        assert old in text, old
        text = text.replace(old, new)
    return text


def named(path):
    """How a refusal names a file."""
    return str(path) if len(str(path)) <= 60 else str(path)[:59] + "\u2026"


TITLES = {"chicken": "Chicken", "coin": "A public coin", "steps": "Two steps"}


def belonging():
    with tempfile.TemporaryDirectory() as place:
        file = Path(place) / "game.efg"
        for number, (name, in_report, in_game, said) in enumerate(others()):
            tool = TOOLS[number % 3]
            report = changed(text_of(f"{name}.report"), in_report).encode()
            file.write_text(changed(text_of(f"{name}.efg"), in_game))
            head = f"{tool}: the report isn't of the game '{TITLES[name]}'"
            yield f"another game: {said}", run(tool, "--game", str(file), given=report), ("", f"{head} ({named(file)}): {said}\n", 2)
            came = run(tool, given=report + file.read_bytes())
            yield f"another game that follows: {said}", came, ("", f"{head} that follows it: {said}\n", 2)


def own_games():
    for tool, name in product(TOOLS, TITLES):
        came = run(tool, "--game", str(SAMPLES / f"{name}.efg"), str(SAMPLES / f"{name}.report"))
        yield f"{tool}: {name} is of its game", came[1:], ("", 0)


# Another kind of file


def mistaken():
    chicken, game, report = text_of("chicken.report"), SAMPLES / "chicken.efg", SAMPLES / "chicken.report"
    first = "line 1 of the report isn't 'corr-report 1', but "
    is_game = "this is a game, not a report: give it by --game"
    yield "a game in place of the report", ["--game", str(report), str(game)], b"", f"{named(game)}: {is_game}"
    yield "a game from standard input", [], b"\n " + game.read_bytes(), is_game
    yield "a report in place of the game", ["--game", str(report), str(report)], b"", f"{named(report)}: this is a report, not a game"
    yield "a report that follows a report", [], (chicken + chicken).encode(), "this is a report, not a game: it follows another report"
    crlf = chicken.replace("\n", "\r\n").encode()
    yield "CR LF", [], crlf, "line 1 of the report ends with CR LF: a report's lines end with LF alone"
    line = chicken[: chicken.index("\n", chicken.index("weight"))] + "\r" + chicken[chicken.index("\n", chicken.index("weight")) :]
    yield "CR LF at one line", [], line.encode(), "line 6 of the report ends with CR LF: a report's lines end with LF alone"
    yield "a verdict", [], b"no efce corner 1 Point\n", first + "'no efce corner 1 Point'"
    yield "another version", [], b"corr-report 2\n", first + "'corr-report 2'"
    yield "a long line", [], b"x" * 5000 + b"\n", first + f"'{'x' * 39}\u2026'"
    yield "no line end at all", [], b"yes", "the report ends within line 1, 'corr-report 1', after 'yes'"
    yield "a report that is cut off in a line", [], b"corr-report 1\nscale 1", "the report ends within line 2, the scales, after 'scale 1'"
    yield "a report that is cut off after a line", [], b"corr-report 1\n", "the report ends before line 2, the scales"
    yield "an empty file", [], b"", "the report ends before line 1, 'corr-report 1'"
    yield "control characters", [], b"a\tb\x1b[1m\n", first + "'a b [1m'"
    mark = b"\xef\xbb\xbf" + chicken.encode()
    yield "a byte order mark", [], mark, "a byte order mark stands before the report: save it as UTF-8 without one"
    yield "a refusal", [], b"refused Syntax byte 20\n", "no report: corr answered 'refused Syntax byte 20'"
    spelled = changed(chicken, {"weight 1\none 1\ntwo 2\ncorner 1": "wieght 1\none 1\ntwo 2\ncorner 1"}).encode()
    yield "a word that is misspelled", [], spelled, "line 6 of the report isn't a weight, but 'wieght 1'"


def kinds():
    for number, (name, words, given, said) in enumerate(mistaken()):
        tool = TOOLS[number % 3]
        yield f"{name}: {tool}", run(tool, *words, given=given), ("", f"{tool}: {said}\n", 2)


# Games that leave it open what plans pay

LISTED = "from those that were listed before"
ODD = {
    "two trees": ('p "" 1 1 { "a" } 0 t "" 0 t "" 0', "node 2 of the game: the nodes before it close the tree"),
    "cut": ('p "" 1 1 { "a" "b" } 0 t "" 0', "the game ends after 2 nodes, before its tree is closed"),
    "no list": ('p "" 1 1 0 t "" 0', "node 0 of the game: its actions are listed nowhere"),
    "two lists": ('p "" 1 1 { "a" "b" } 0 p "" 1 1 { "a" } 0', f"node 1 of the game: its actions differ {LISTED}"),
    "no payoffs": ('t "" 1', "node 0 of the game: what its outcome pays is given nowhere"),
    "one payoff": ('t "" 1 { 1 }', "node 0 of the game: an outcome pays 2 amounts, not 1"),
    "two outcomes": ('p "" 1 1 { "a" } 1 { 1 2 } t "" 1 { 1 3 }', "node 1 of the game: its outcome pays something else than before"),
    "outcome 0": ('t "" 0 { 1 1 }', "node 0 of the game: its outcome pays something else than before"),
    "player 3": ('p "" 3 1 { "a" } 0 t "" 0', "node 0 of the game: player 3 moves, and there are players 1 and 2"),
    "absent-minded": ('p "" 1 1 { "a" } 0 p "" 1 1 0 t "" 0', "node 1 of the game: player 1 has forgotten an own move"),
    "digits": (f't "" 1 {{ {"9" * 100} 1 }}', "node 0 of the game: a number has over 30 digits"),
}


def refusal(text):
    try:
        Tree(read_game(text.encode()))
    except Bad as bad:
        return str(bad)
    return None


def odd():
    for name, (nodes, said) in ODD.items():
        yield f"no tree: {name}", refusal('EFG 2 R "" { "A" "B" } ' + nodes), said
    yield "no tree: one player", refusal('EFG 2 R "" { "A" } t "" 0'), "the game has 1 players, not 2"


# What plans pay


def games():
    for path in sorted((ROOT / "examples").glob("*.efg")):
        if path.stem != "forgetful":
            yield path.stem, Tree(read_game(path.read_bytes())), Game(read(path.read_text())[0])


def drawn_plan(draw, game, player):
    plan = ()
    for own, count in zip(game.own[player], game.actions[player]):
        plan += (draw.randrange(count) if plays(plan, own) else None,)
    return plan


def counted(plan):
    """A plan as reports have it, with actions from 1."""
    return tuple(None if action is None else action + 1 for action in plan)


def pays():
    draw = random.Random(5)
    for name, tree, game in games():
        pairs = [(drawn_plan(draw, game, 1), drawn_plan(draw, game, 2)) for _ in range(40)]
        wanted = [(game.pay(1, *pair), game.pay(2, *pair)) for pair in pairs]
        came = [tree.pay(*map(counted, pair)) for pair in pairs]
        yield f"{name}: what pairs of plans pay", (tree.scales, came), ((game.scale[1], game.scale[2]), wanted)
        yield f"{name}: these are plans", {tree.plan_fault(k + 1, counted(pair[k])) for pair in pairs for k in (0, 1)}, {None}


def plans(game, player):
    """All lists with an entry for each set: an action, one that is too great, or none."""
    return product(*([None, *range(count + 1)] for count in game.actions[player]))


def few(game, most):
    """Whether each player has a set and few lists of entries."""
    counts = [sum(1 for _ in zip(range(most + 1), plans(game, player))) for player in (1, 2)]
    return max(counts) <= most


def all_plans():
    small = [(name, tree, game) for name, tree, game in games() if few(game, 2000)]
    yield "games of which all plans are tried", len(small) >= 10, True
    for name, tree, game in small:
        wrong = [k for k in (1, 2) for p in plans(game, k) if (tree.plan_fault(k, counted(p)) is None) != game.is_reduced(k, p)]
        yield f"{name}: which lists are plans", wrong, []
        yield f"{name}: feasible payoffs and Nash equilibria", payoffs_of(tree), by_definition(game)


def by_definition(game):
    """The feasible payoffs' corners and the payoffs of pure Nash equilibria, pair by pair."""
    ones, twos = ([plan for plan in plans(game, player) if game.is_reduced(player, plan)] for player in (1, 2))
    paid = {(one, two): (game.pay(1, one, two), game.pay(2, one, two)) for one, two in product(ones, twos)}
    best = {two: max(paid[one, two][0] for one in ones) for two in twos}
    replies = {one: max(paid[one, two][1] for two in twos) for one in ones}
    unscaled = {pair: (Fraction(a, game.scale[1]), Fraction(b, game.scale[2])) for pair, (a, b) in paid.items()}
    nash = {unscaled[one, two] for one, two in paid if paid[one, two] == (best[two], replies[one])}
    corners = hull(list(unscaled.values()))
    start = corners.index(min(corners))
    return corners[start:] + corners[:start], sorted(nash)


PARTS = (belonging, own_games, kinds, odd, pays, all_plans)
