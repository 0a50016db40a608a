"""Tries corr-plans: its polygons against examples/INDEX.md and against `brute`, its corners and sides against the definitions, its reports
against the program of a notion and, where the program is built, by `corr check`. Parts of checks/contrib, which runs them."""
import random
import re
import subprocess
import tempfile
from fractions import Fraction
from itertools import product
from pathlib import Path

import corr_simplex
from brute import polygon
from corr_deviations import Play
from corr_polygon import fault as own_fault
from corr_polygon import polygon_of
from corr_report import NOTIONS, Bad, read_game, read_report
from corr_tree import Tree
from corr_writing import check_width
from definitions import AXES, Game, belt_fault, plays, text_of
from efg import read
from reports import Found, Report, fault, is_certified
from tool_tests import run
from where_tests import loaded, on_file

ROOT = Path(__file__).resolve().parent.parent
PROGRAM = ROOT / "crates" / "corr_cli" / "out" / "corr_cli"
GAMES = loaded("../checks/games")
SLOW = ("entry-three", "three-card-poker")  # more than a second a notion
TRIANGLES = (614, 1072, 1080, 1315, 1625, 1766, 2301, 3297, 3528, 3607, 3926)  # drawn games that have one


def file_of(name):
    return ROOT / "examples" / f"{name}.efg"


def play_of(data):
    return Play(Tree(read_game(data)))


def quiet(text):
    """Progress that nobody watches."""


def corners(play, notion):
    """The polygon's corners, or what the tool finds wrong with it."""
    found = polygon_of(play, notion, quiet)
    return own_fault(play, found) or [corner.point for corner in found.corners]


def unscaled(points, scales):
    return points if isinstance(points, str) else [(one / scales[0], two / scales[1]) for one, two in points]


# Polygons


def points(text):
    return [tuple(map(Fraction, pair)) for pair in re.findall(r"\(([^ ,]+), ([^)]+)\)", text)]


def table():
    """The games of examples/INDEX.md, each with the cells of the three notions; those of the second table are links."""
    text = (ROOT / "examples" / "INDEX.md").read_text(encoding="utf-8")
    for line in re.findall(r"^\| `.*$", text, re.M):
        cells = [cell.strip() for cell in line.strip("|").split("|")]
        yield cells[0].strip("`")[: -len(".efg")], cells[6:9]
    for line in re.findall(r"^\| \[.*$", text, re.M):
        cells = [cell.strip() for cell in line.strip("|").split("|")]
        yield re.match(r"\[([^]]+)\]", cells[0])[1], cells[1:4]


def answered():
    names = []
    for name, cells in table():
        if not cells[0].startswith("(") or name in SLOW:
            continue
        names.append(name)
        play = play_of(file_of(name).read_bytes())
        for k, notion in enumerate(NOTIONS):
            cells[k] = cells[k - 1] if cells[k] == "same" else cells[k]
            yield f"{name}: the corners of {notion}", unscaled(corners(play, notion), play.tree.scales), points(cells[k])
    yield "games that are answered", {"signalling", "bargaining", "centipede-ten", "chicken-millions", "sheriff"} - set(names), set()


def known():
    """Values by hand. In `too-wide` First wins a stake where both name its number."""
    stakes = (134217728, 134217727, 134217729, 134217725)
    value = 1 / sum(Fraction(1, stake) for stake in stakes)
    play = play_of(file_of("too-wide").read_bytes())
    yield "the value with wide numbers", {notion: corners(play, notion) for notion in NOTIONS}, dict.fromkeys(NOTIONS, [(value, -value)])
    play = play_of(file_of("three-card-poker").read_bytes())
    scaled = [(Fraction(-1, 18) * 6, Fraction(1, 18) * 6)]  # Kuhn 1950; the scales are 6
    yield "the value of poker with three cards", [corners(play, notion) for notion in ("efcce", "nfcce")], [scaled, scaled]
    # Both types choose beer, and Rival leaves after it: 9/10 * 3 + 1/10 * 2 and 9/10. Both choose quiche: 9/10 * 2 + 1/10 * 3 and 9/10.
    play = play_of(file_of("signalling").read_bytes())
    pooling = {(Fraction(29, 10), Fraction(9, 10)), (Fraction(21, 10), Fraction(9, 10))}
    yield "both pooling equilibria", pooling - set(unscaled(corners(play, "efce"), play.tree.scales)), set()


def drawn():
    """Drawn games with and without triangles; some of them once more with Bland's rule alone."""
    triangles = 0
    for number, tree in ((number, GAMES.drawn(random.Random(number))) for number in (*range(100, 140), *TRIANGLES)):
        game = Game(tree)
        if game.forgets or GAMES.plan_count(game) > 200:
            continue
        triangles += game.has_triangle()
        play, usual = play_of(text_of(tree).encode()), corr_simplex.PATIENCE
        corr_simplex.PATIENCE = usual if number % 2 else -1
        came = [unscaled(corners(play, notion), play.tree.scales) for notion in NOTIONS]
        corr_simplex.PATIENCE = usual
        yield f"drawn game {number}: its polygons", came, [polygon(game, notion) for notion in NOTIONS]
    yield "drawn games with a triangle", triangles, len(TRIANGLES)


def by_pairs():
    for notion in NOTIONS:
        game, play = Game(read(file_of("signalling").read_text())[0]), play_of(file_of("signalling").read_bytes())
        came = unscaled(corners(play, notion), play.tree.scales)
        yield f"signalling from all pairs of plans: {notion}", came, polygon(game, notion)


# The text

ONE = """\
corr-plans 1
from the definition, not proved
scale 1 1
notion nfcce found
corners 1
corner 0 3 4 total 1 pairs 1
weight 1
one
two
sides 4
side 1 0 corner 0 den 1 deviations 0
side 0 1 corner 0 den 1 deviations 0
side -1 0 corner 0 den 1 deviations 0
side 0 -1 corner 0 den 1 deviations 0
end
"""
# Anna chooses first, Bert second; a promise of 2 is broken for 3. No weight is left for the promise, and leaving gains 1 there.
PROMISE = 'EFG 2 R "" { "A" "B" } p "" 2 7 { "keep" "break" } 0 t "" 1 { 2 2 } t "" 2 { 0 3 }'
PROMISED = """\
notion efce found
corners 1
corner 0 0 3 total 1 pairs 1
weight 1
one
two 2
sides 4
side 1 0 corner 0 den 1 deviations 1
weight 2
player 2 set 7 action 1
then 2
"""


def texts():
    yield "a game of one leaf", run("corr-plans", "--notion", "nfcce", str(file_of("one"))), (ONE, "", 0)
    out, err, status = run("corr-plans", "-", given=PROMISE.encode())
    yield "a game of one move", (out[out.index("notion") :][: len(PROMISED)], err, status), (PROMISED, "", 0)
    heads = re.findall("^notion.*|^player .*", out, re.M)
    triggers = ["set 7 action 1", "set 7", "start"]
    wanted = [line for notion, at in zip(NOTIONS, triggers) for line in (f"notion {notion} found", f"player 2 {at}")]
    yield "the triggers of the notions", list(dict.fromkeys(heads)), wanted


def sides_of(lines):
    """The sides of a block: direction, corner, denominator, and the deviations as weight, player, trigger and plan."""
    for line in lines:
        words = line.split()
        if words[0] != "side":
            return
        deviations = [_deviation(*(next(lines).split() for _ in range(3))) for _ in range(int(words[8]))]
        yield (int(words[1]), int(words[2])), int(words[4]), int(words[6]), deviations


def _deviation(weight, trigger, plan):
    entries = tuple(None if word == "-" else int(word) - 1 for word in plan[1:])
    return int(weight[1]), int(trigger[1]), trigger[2:], entries


def held(name, notion):
    """What is wrong with a block of corr-plans by the definitions, or None."""
    text, game = run("corr-plans", "--notion", notion, str(file_of(name)))[0], Game(read(file_of(name).read_text())[0])
    head, tail = text.split("\nsides ")
    block = Found(iter(head.split("\n")[4:] + ["sides 0"]))
    sides = list(sides_of(iter(tail.split("\n")[1:])))
    return held_corners(game, notion, block) or held_sides(game, notion, block, sides)


def held_corners(game, notion, block):
    for k, (point, total, pairs) in enumerate(block.corners):
        paid = tuple(Fraction(sum(w * game.pay(i, one, two) for w, one, two in pairs), total * game.scale[i]) for i in (1, 2))
        if paid != point or total != sum(w for w, _, _ in pairs) or game.improves(notion, pairs):
            return f"corner {k}"
    return None


def held_sides(game, notion, block, sides):
    plans = {i: [plan for plan in all_lists(game, i) if game.is_reduced(i, plan)] for i in (1, 2)}
    for k, (direction, corner, denominator, deviations) in enumerate(sides):
        scaled = [part * game.scale[i] for i, part in zip((1, 2), block.points()[corner])]
        most = denominator * (direction[0] * scaled[0] + direction[1] * scaled[1])
        sums = (total_of(game, notion, pair, direction, denominator, deviations) for pair in product(plans[1], plans[2]))
        if max(sums) > most or any(weight < 1 for weight, *_ in deviations):
            return f"side {k}"
    return belt_fault(block.points(), [(direction, corner) for direction, corner, _, _ in sides])


def all_lists(game, side):
    return product(*([None, *range(count)] for count in game.actions[side]))


def total_of(game, notion, pair, direction, denominator, deviations):
    """A pair's payoffs in a direction times the denominator, less what its players gain by the deviations, times their weights."""
    total = denominator * sum(part * game.pay(i, *pair) for i, part in zip((1, 2), direction))
    for weight, side, words, plan in deviations:
        top, sequence = trigger_of(game, side, words)
        mine = pair[side - 1]
        if plays(mine, sequence):
            inside = [top is None or game.is_below(side, k, top) for k in range(len(mine))]
            mine = tuple(new if within else old for new, old, within in zip(plan, mine, inside))
        other = (mine, pair[1]) if side == 1 else (pair[0], mine)
        total -= weight * (game.pay(side, *other) - game.pay(side, *pair))
    return total


def trigger_of(game, side, words):
    """The set and the sequence of a trigger that is written as words."""
    if words == ["start"]:
        return None, ()
    top = game.numbers[side, int(words[1])]
    return top, game.own[side][top] + (((top, int(words[3]) - 1),) if words[2:] else ())


def sound():
    for name in ("signalling", "public-coin", "outside-option", "centipede", "inspection", "battleship"):
        for notion in NOTIONS:
            yield f"{name}: {notion} is true, by the definitions", held(name, notion), None


def own_check():
    """The tool's own check, on polygons of signalling that are damaged in one place. Leaving at set 2 matters at the first side."""
    play = play_of(file_of("signalling").read_bytes())
    found = polygon_of(play, "efce", quiet)
    first, bound = found.corners[0], found.bounds[1, 0]
    yield "a true polygon", own_fault(play, found), None
    for name, corner in (
        ("another point", first._replace(point=(first.point[0] + 1, first.point[1]))),
        ("another total", first._replace(total=2)),
        ("all duel, and Strong has quiche", first._replace(weights={play.numbers[1][2, 1] * 4: 1})),
    ):
        yield f"a corner with {name}", own_fault(play, found._replace(corners=[corner] + found.corners[1:])), "corner 0 of efce"
    weights = {deviation: -weight for deviation, weight in bound.weights.items()}
    for name, other in (
        ("no weights", bound._replace(weights={})),
        ("weights below 0", bound._replace(weights=weights)),
        ("a greater bound", bound._replace(most=bound.most + 1)),
        ("no denominator", bound._replace(denominator=-bound.denominator, most=-bound.most)),
    ):
        came = own_fault(play, found._replace(bounds={**found.bounds, (1, 0): other}))
        yield f"a side with {name}", came, "side 0 of efce"


# Other tools

WELFARE = """\
efce  greatest sum     21/2  corner 1 (21/4, 21/4)
efce  least sum        36/5  corner 3 (18/5, 18/5)
efce  best for Row     7     corner 0 (7, 2)
efce  best for Column  7     corner 2 (2, 7)
"""


def readers():
    game = str(file_of("chicken"))
    out = run("corr-plans", "--notion", "efce", game)[0].encode()
    yield "what corr-welfare reads", run("corr-welfare", "--game", game, given=out), (WELFARE, "", 0)
    for tool in ("corr-names", "corr-plot"):
        came = run(tool, "--game", game, given=out)
        yield f"{tool} reads the corners", (came[0].count("21/4") > 0, *came[1:]), (True, "", 0)
    wide = run("corr-plans", str(file_of("too-wide")))[0].encode()
    yield "wide numbers are read", [len(block.corners) for block in read_report(wide)[0].blocks], [1, 1, 1]
    ends = [match.start() for match in re.finditer(rb"\n", out)]
    yield "an answer that is cut off at a line", [end for end in ends if reads(out[:end])], []
    yield "a whole answer", reads(out), True
    for old, new in ((b"not proved", b"proved"), (b"plans 1", b"plans 2"), (b"deviations 1", b"deviations 9"), (b"then", b"than")):
        yield f"{new.decode()} in an answer", (old in out, reads(out.replace(old, new))), (True, False)


def reads(data):
    return refusal_of(read_report, data) is None


# Refusals

HEAD = 'EFG 2 R "" { "A" "B" } '
MANY = " ".join(f'"{k}"' for k in range(65))
WIDE = 'p "" 1 1 { "a" "b" } 0 p "" 2 1 { "a" "b" } 0 '
REFUSED = [
    (HEAD + 'c "" 1 { "a" 1/2 "b" 1/3 } 0 t "" 0 t "" 0', "refused ChanceSum node 0"),
    (HEAD + 'c "" 1 { "a" 3/2 "b" -1/2 } 0 t "" 0 t "" 0', "refused ChanceNegative node 0"),
    (HEAD + f'p "" 1 1 {{ {MANY} }} 0 ' + 't "" 0 ' * 65, "refused TooManyActions node 0"),
    (HEAD + 'p "" 1 1 { "a" } 0 p "" 1 1 0 t "" 0', "node 1 of the game: player 1 has forgotten an own move"),
    (HEAD + 'p "" 1 1 { "a" } 0', "the game ends after 1 nodes, before its tree is closed"),
    (HEAD + "x", "byte 23 of the game: a comment or a node (c, p or t) was to come"),
]


def square(count):
    """A game that both play unseen, with as many actions each."""
    actions = "{ " + " ".join(f'"{k}"' for k in range(count)) + " }"
    rows = f'p "" 2 1 {actions} 0 ' + 't "" 0 ' * count
    return HEAD + f'p "" 1 1 {actions} 0 ' + rows * count


def doubled():
    """A game with two unseen choices after each of two actions of either player: 64 * 2 plans of player 1, 64 * 2 of player 2."""
    return f'{HEAD}c "" 1 {{ "l" 1/2 "r" 1/2 }} 0 ' + "".join(square(64)[len(HEAD) :].replace(" 1 {", f" {k} {{") for k in (1, 2))


def refusals():
    for text, said in REFUSED:
        yield f"refused: {said}", on_file("corr-plans", text), ("", f"corr-plans: {said}\n", 2)
    said = "the game has 16777216 pairs of reduced plans: 10000 are gone through at most"
    yield "too many pairs of plans", on_file("corr-plans", doubled()), ("", f"corr-plans: {said}\n", 2)
    said = "refused Triangle sets 1 2 1 2: a report has the program of a game without a triangle; leave out --report"
    yield "a triangle with --report", run("corr-plans", "--report", str(file_of("signalling"))), ("", f"corr-plans: {said}\n", 2)
    said = "efce: a number is too wide for a report, with 2^62 or more, or 2^126 in a payoff; leave out --report"
    yield "a wide number with --report", run("corr-plans", "--report", str(file_of("too-wide"))), ("", f"corr-plans: {said}\n", 2)


# The greatest numbers of a report, and the ones after them.
WIDTHS = [
    ("weight 4611686018427387903", True),
    ("weight 4611686018427387904", False),
    ("side 1 -4611686018427387903 corner 0 den 1\nfirst 0 -1\nsecond 0 1", True),
    ("side 1 -4611686018427387904 corner 0 den 1\nfirst 0 -1\nsecond 0 1", False),
    ("side 1 1 corner 0 den 1\nfirst 0 1\nsecond 0 -4611686018427387904", False),
    ("corner 0 1/85070591730234615865843651857942052863 -1 total 1 pairs 1", True),
    ("corner 0 1/85070591730234615865843651857942052864 -1 total 1 pairs 1", False),
    ("corner 0 -85070591730234615865843651857942052864 -1 total 1 pairs 1", False),
    ("corner 0 1 -1 total 4611686018427387904 pairs 1", False),
    ("weight 1\none 1 -\ntwo 2", True),
]


def widths():
    for line, fits in WIDTHS:
        yield f"a report's line {line!r}", refusal_of(check_width, "efce", ["corners 1", line]) is None, fits


def refusal_of(body, *words):
    try:
        body(*words)
    except Bad as bad:
        return str(bad)
    return None


# Reports


def certified(name):
    """The report that is written for a game, and what is wrong with it by the program of each notion."""
    text = run("corr-plans", "--report", str(file_of(name)))[0]
    game, report = Game(read(file_of(name).read_text())[0]), Report(text)
    for notion, block in report.blocks.items():
        program = game.program(notion)
        wrong = [k for k, side in enumerate(block.sides) if not is_certified(game, program, block, side)]
        yield f"{name}: sides of {notion} that aren't shown", wrong, []
        whole = belt_fault(block.points(), [side[:2] for side in block.sides]) if name == "bargaining" else fault(game, notion, block)
        yield f"{name}: the report of {notion}", whole, None
    yield f"{name}: notions and axes", (list(report.blocks), axes_of(report)), (list(NOTIONS), [set(AXES)] * 3)
    yield from checked(name, text)


def axes_of(report):
    return [{side[0] for side in block.sides} & set(AXES) for block in report.blocks.values()]


def checked(name, text):
    if PROGRAM.exists():
        with tempfile.NamedTemporaryFile(suffix=".report", mode="w") as kept:
            kept.write(text + file_of(name).read_text())
            kept.flush()
            with open(kept.name, "rb") as both:
                ended = subprocess.run([str(PROGRAM), "check"], stdin=both, capture_output=True, text=True, check=False)
        yield f"{name}: corr check", (ended.stdout, ended.returncode), ("yes\n", 0)


def reports():
    if not PROGRAM.exists():
        print("contrib: the program isn't built, so no report of corr-plans was tried by corr check")
    for name in ("chicken", "chicken-millions", "sheriff", "public-coin", "inspection", "one", "bargaining"):
        yield from certified(name)


PARTS = (answered, known, drawn, by_pairs, texts, sound, own_check, readers, refusals, widths, reports)
