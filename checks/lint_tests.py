"""Tries corr-lint: each warning on a file that has the slip and on files that nearly have it, the files of examples/, damaged files, and
what it says of chance against the definition. Parts of checks/contrib, which runs them."""
import random
import re
import subprocess
import tempfile
from pathlib import Path

from efg import read
from where_tests import DRAW, EXAMPLES, FORGETFUL, HEAD, TOOLS, loaded, on_file, stop

from corr_report import Bad

TRIANGLE = "with perfect recall this game has no triangle"
BASE = [
    'EFG 2 R "" { "Row" "Column" }',
    'p "" 1 1 "Start" { "a" "b" } 0',
    'p "" 2 1 "High" { "l" "r" } 0',
    't "" 1 "one" { 1, 0 }',
    't "" 2 "two" { 0, 1 }',
    'p "" 2 2 "Low" { "l" "r" } 0',
    't "" 1 "one"',
    't "" 2 "two"',
]
# Only the second action of chance is ever drawn.
DRAWN = [
    BASE[0],
    'c "" 1 "Coin" { "h" 0 "t" 1 } 0',
    'p "" 1 1 "Start" { "a" } 0',
    't "" 1 "one" { 1, 0 }',
    'p "" 2 1 "High" { "l" } 0',
    't "" 2 "two" { 0, 1 }',
]
TWICE = [
    BASE[0],
    'c "" 1 "Coin" { "h" 1 } 0',
    'c "" 1 "Coin" 0',
    'p "" 1 1 "Start" { "a" } 0',
    'p "" 2 1 "High" { "l" } 0',
    't "" 1 { 1, 1 }',
]
LEAVES = [*BASE[:2], 't "" 1 { 1, 0 }', 't "" 2 { 0, 1 }']
LEFT_OUT = {2: 'c "" 1 { "h" 1 "t" 0 } 0', 3: 'c "" 1 0', 4: 't "" 1 { 1, 0 }', 5: 't "" 2 { 0, 1 }', 6: 't "" 2'}
IDLE = ["line 1, column 14: Row never moves", "line 1, column 20: Column never moves"]
UNREACHED = [
    "line 3, column 8: set 1 of player 1 is never reached: all its nodes have probability 0",
    "line 4, column 6: outcome 1 is never paid: all its nodes have probability 0",
]
AGAIN = 'line 6, column 8: set 1 of player 2 is "Low" here and "High" on line 3: is the number right?'
MIXED = 'line 8, column 6: outcome 1 is "two" here and "one" on line 4: is the number right?'
ONE_SET_NAME = 'line 6, column 8: sets 1 and 2 of player 2 have one name, "High"'
OTHER_PAYOFF = 'line 7, column 6: outcomes 1 and 3 have one name, "one", and pay differently'
OTHER_DRAW = 'line 3, column 6: draw 1 is "Dice" here and "Coin" on line 2: is the number right?'
UNPAID = "line 5, column 6: outcome 2 is never paid: all its nodes have probability 0"
ONE_NAME = 'line 8, column 6: outcomes 1 and 2 have one name, "two", and pay differently'


def multiples(name, column, unit):
    said = f"all payoffs of {name} are multiples of {unit}: divided by {unit} they give the same equilibria, with smaller numbers"
    return [f"line 1, column {column}: {said}"]


def edited(base, lines):
    """The lines of a file, some of them, counted from 1, replaced."""
    return "\n".join(lines.get(k, line) for k, line in enumerate(base, 1)) + "\n"


def paying(first, second):
    return BASE, {4: f't "" 1 "one" {{ {first} }}', 5: f't "" 2 "two" {{ {second} }}'}


# The lines of a file, those that are replaced, and the warnings.
WARNED = [
    ("no slip", BASE, {}, []),
    ("a set with two names", BASE, {6: 'p "" 2 1 "Low" { "l" "r" } 0'}, [AGAIN]),
    ("a set whose name is left out", BASE, {6: 'p "" 2 1 0'}, []),
    ("a set whose name is empty once", BASE, {6: 'p "" 2 1 "" { "l" "r" } 0'}, []),
    ("a set whose name is empty at first", BASE, {3: 'p "" 2 1 "" { "l" "r" } 0', 6: 'p "" 2 1 "Low" 0'}, []),
    ("a set that comes twice", BASE, {6: BASE[2]}, []),
    ("two sets with one name", BASE, {6: 'p "" 2 2 "High" { "l" "r" } 0'}, [ONE_SET_NAME]),
    ("two sets without names", BASE, {3: 'p "" 2 1 "" { "l" "r" } 0', 6: 'p "" 2 2 "" { "l" "r" } 0'}, []),
    ("sets of two players with one name", BASE, {6: 'p "" 2 2 "Start" { "l" "r" } 0'}, []),
    ("sets of two players with one number", BASE, {6: 'p "" 1 2 "Low" { "l" "r" } 0'}, []),
    ("an outcome with two names", BASE, {8: 't "" 1 "three"'}, [MIXED.replace('"two"', '"three"')]),
    ("an outcome with another's name", BASE, {8: 't "" 1 "two"'}, [MIXED, ONE_NAME]),
    ("outcome 0 with another's name", BASE, {8: 't "" 0 "two"'}, [ONE_NAME.replace("1 and 2", "0 and 2")]),
    ("two outcomes with one name that pay the same", BASE, {7: 't "" 3 "one" { 1.0 0/2 }'}, []),
    ("two outcomes with one name", BASE, {7: 't "" 3 "one" { 2, 0 }'}, [OTHER_PAYOFF]),
    ("names that differ where they can't be read", BASE, {3: BASE[2].replace("High", "\udce4"), 6: BASE[5].replace("Low", "\udcf6")}, []),
    ("a draw that comes twice", TWICE, {}, []),
    ("a draw with two names", TWICE, {3: 'c "" 1 "Dice" 0'}, [OTHER_DRAW]),
    ("two draws with one name", TWICE, {3: 'c "" 2 "Coin" { "h" 1 } 0'}, []),
    ("never drawn, by a list that is left out", TWICE, LEFT_OUT, [*IDLE, UNPAID]),
    ("never drawn", DRAWN, {}, UNREACHED),
    ("never drawn, as a decimal", DRAWN, {2: 'c "" 1 "Coin" { "h" 0.00 "t" 1 } 0'}, UNREACHED),
    ("never drawn, as a fraction", DRAWN, {2: 'c "" 1 "Coin" { "h" 0/10 "t" 1 } 0'}, UNREACHED),
    ("seldom drawn", DRAWN, {2: 'c "" 1 "Coin" { "h" .01 "t" 99/100 } 0'}, []),
    ("never drawn, but reached elsewhere", DRAWN, {5: DRAWN[2], 6: 't "" 1'}, IDLE[1:]),
    ("nothing is paid and never drawn", DRAWN, {4: 't "" 0'}, UNREACHED[:1]),
    ("a common factor", *paying("1000, 1", "-3000, 2"), multiples("Row", 14, 1000)),
    ("a common factor of both", *paying("4, 6", "6, 9"), multiples("Row", 14, 2) + multiples("Column", 20, 3)),
    ("a common factor that is a fraction", *paying("3/2, 0", "4.5, 1"), multiples("Row", 14, "3/2")),
    ("a common factor below 1", *paying("2/3, 0", "-4/3, 1"), multiples("Row", 14, "2/3")),
    ("halves", *paying("1/2, 0", "3/2, 1"), []),
    ("whole numbers without a factor", *paying("2, 0", "3, 1"), []),
    ("a player who is never paid", *paying("0, 1", "0, -1"), []),
    ("a number that is too long", *paying("2" + "0" * 70 + ", 1", "0, 2"), []),
    ("a player who never moves", LEAVES, {}, IDLE[1:]),
    ("a player without a name", LEAVES, {1: 'EFG 2 R "" { "" "" }'}, ["line 1, column 17: player 2 never moves"]),
]


def warnings():
    for name, base, lines, wanted in WARNED:
        out, err, status = on_file("corr-lint", edited(base, lines).encode("utf-8", "surrogateescape"))
        *came, last = out.splitlines()
        yield name, (came, err, status), ([f"FILE: {line}" for line in wanted], "", int(bool(wanted)))
        yield f"{name}: the last line", "chance" in last, True


# The files of examples/

# Only these have warnings. Each is true: the names of outcomes stand for what happened, which pays differently from case to case; First's
# payoffs in the centipede are 4, 2, 16, 8 and 64, and go on so with ten moves; in the bargaining over 100 parts are tens; and in the
# smallest file nobody moves.
JUDGED = {
    "alternating-offers": ['line 11, column 6: outcomes 1, 4, 9 and 14 have one name, "Accepted 2", and pay differently'],
    "bargaining": multiples("Ann", 138, 10) + multiples("Bob", 144, 10),
    "centipede": multiples("First", 101, 2),
    "centipede-ten": multiples("First", 100, 2),
    "chicken-millions": multiples("Row", 99, 10**6) + multiples("Column", 105, 10**6),
    "one": [*multiples("A", 17, 3), "line 1, column 17: A never moves", *multiples("B", 21, 4), "line 1, column 21: B never moves"],
    "sheriff": [
        'line 9, column 6: outcomes 1, 3, 5, 7, 9, 11, 13, 15 and 1 more have one name, "Passed", and pay differently',
        'line 20, column 6: outcomes 8, 10, 12, 14, 16 and 18 have one name, "Found", and pay differently',
    ],
    "three-card-poker": ['line 9, column 6: outcomes 1, 3, 5, 6, 8, 10, 11, 13 and 10 more have one name, "Shown", and pay differently'],
    "two-card-poker": ['line 9, column 6: outcomes 1, 3, 5, 6, 8 and 10 have one name, "Shown", and pay differently'],
}


def judged():
    for path in EXAMPLES:
        out, err, status = on_file("corr-lint", path.read_bytes())
        wanted = [f"FILE: {line}" for line in JUDGED.get(path.stem, [])]
        yield f"{path.name}'s warnings", (out.splitlines()[:-1], err, status), (wanted, "", int(bool(wanted)))


# Chance


def moves(tree):
    """The sets with a node in a tree of `efg`: who moves there, and the set's number."""
    if tree[0] == "t":
        return set()
    if tree[0] == "c":
        return {place for _, after in tree[1] for place in moves(after)}
    return {tree[1:3]} | {place for after in tree[3] for place in moves(after)}


def is_public(tree):
    """By the definition: no set has nodes at or below two different nodes that follow one chance node."""
    if tree[0] == "t":
        return True
    after = [node for _, node in tree[1]] if tree[0] == "c" else tree[3]
    seen = [place for node in after for place in moves(node)]
    return all(map(is_public, after)) and (tree[0] == "p" or len(seen) == len(set(seen)))


DEEPEST = 4


def drawn_tree(drawn, depth):
    """The lines of a small tree at random; every node of a set has as many actions."""
    if depth == 0:
        return ['t "" 0']
    kind = "c" if depth == DEEPEST else drawn.choice("cpp")
    player, number = drawn.randint(1, 2), drawn.randint(1, 3)
    head = f'p "" {player} {number} {{ "a" "b" }} 0' if kind == "p" else 'c "" 1 { "a" 1/2 "b" 1/2 } 0'
    return [head, *drawn_tree(drawn, drawn.randrange(depth)), *drawn_tree(drawn, drawn.randrange(depth))]


def chances():
    drawn = random.Random(1)
    texts = [path.read_text() for path in EXAMPLES] + ["\n".join([BASE[0], *drawn_tree(drawn, DEEPEST)]) + "\n" for _ in range(100)]
    answers = {True: 0, False: 0}
    tool = loaded("corr-lint")
    for text in texts:
        last = tool.chance_line("FILE", text.encode(), *tool.read("FILE", text.encode()))
        public = is_public(read(text)[0])
        answers[public] += 1
        yield f"chance in {text[:60]!r}", (last.endswith(TRIANGLE), " isn't public: " in last), (public, not public)
    yield "both answers were tried", min(answers.values()) > 9, True


HIDDEN = "FILE: line 2, column 1: chance isn't public: player 2 doesn't know this draw at set 1"
SECOND_DRAW = {3: 'c "" 2 { "h" 1/2 "t" 1/2 } 0', 4: 'p "" 2 1 { "l" } 0\nt "" 0', 5: 'p "" 2 1 0'}
LAST = [
    ("no chance", BASE, {}, f"FILE: no chance moves: {TRIANGLE}"),
    ("public chance", DRAWN, {}, f"FILE: chance is public: {TRIANGLE}"),
    ("a draw that one player doesn't know", DRAWN, {3: 'p "" 2 1 "High" { "l" } 0'}, HIDDEN),
    ("the second draw", TWICE, SECOND_DRAW, HIDDEN.replace("line 2", "line 3")),
]


def last_lines():
    for name, base, lines, wanted in LAST:
        yield name, on_file("corr-lint", edited(base, lines))[0].splitlines()[-1], wanted


# What isn't a game

OPEN = "line 3, column 7, the end of the file: the tree isn't closed; no node follows action 2 of line 2"
REFUSED = [
    ("", "line 1, column 1, the end of the file: 'EFG' was to come; the file is empty"),
    (DRAW + '0,5 "b" 0,5 } 0', "line 1, column 38: '}' or an action was to come; 0,5 has a decimal comma: write 0.5"),
    (DRAW + "x", "line 1, column 37: a probability was to come"),
    ('EFG 2 R "" { "A" }\nt "" 0', "line 1, column 12: the number of players is 1, not 2"),
    (HEAD + 'p "" 3 1 { "a" } 0 t "" 0', "line 1, column 24: player 3 moves, and there are players 1 and 2"),
    (HEAD + '\nt "" 0\nt "" 0', "line 3, column 1: the nodes before it close the tree"),
    (HEAD + '\np "" 1 1 { "a" "b" } 0\nt "" 0', OPEN),
    (HEAD, "line 1, column 24, the end of the file: the tree isn't closed"),
    (HEAD + 'p "" 1 1 0 t "" 0', "node 0 of the game: its actions are listed nowhere before"),
]


def refused():
    for text, wanted in REFUSED:
        place = f"FILE: {wanted}" if wanted.startswith("line") else wanted
        out, err, status = on_file("corr-lint", text)
        yield f"not a game: {text[-30:]!r}", (out, re.sub("^corr-lint: ", "", err), status), ("", place + "\n", 2)
    yield "a game that corr refuses for its recall", on_file("corr-lint", FORGETFUL)[1:], ("", 0)
    with open("/dev/full", "w") as full:
        ended = subprocess.run([str(TOOLS / "corr-lint"), str(EXAMPLES[0])], stdout=full, stderr=subprocess.PIPE, check=False)
    yield "no room for the warnings", ended.returncode, 74


# Damaged files


def damages(data, drawn):
    """A file cut off, without some bytes, with a byte changed, and with one of its tokens in another's place."""
    first, last = sorted((drawn.randrange(len(data)), drawn.randrange(len(data))))
    yield data[:last]
    yield data[:first] + data[last:]
    yield data[:first] + bytes([drawn.choice(b'\0"{},0123456789cpt \n\\\xff')]) + data[first + 1 :]
    tokens = list(re.finditer(rb'"[^"]*"|[{},]|[^\s{},"]+', data))
    one, other = drawn.choice(tokens), drawn.choice(tokens)
    yield data[: one.start()] + other.group() + data[one.end() :]


def answered(body, *words):
    """Whether a tool's body answers or refuses; anything else that it raises is a fault."""
    try:
        return bool(body(*words))
    except Bad:
        return None
    except Exception as fault:  # what a user would meet as a traceback
        return repr(fault)


def refusals_of(data):
    """What corr might say of a damaged file, rightly or not."""
    found = stop(data)
    yield f"refused Syntax byte {found[0] if found else len(data)}"
    for rule in ("MissingNode node 3", "ExtraNode node 2", "PayoffCount node 1", "Players 3", "Triangle sets 1 2 1 2", "Report byte 0"):
        yield f"refused {rule}"


def answers_to(file, lint, where):
    """What the two tools answer to a file: True, None for a refusal, or a fault."""
    with tempfile.NamedTemporaryFile(suffix=".efg") as kept:
        kept.write(file)
        kept.flush()
        linted = answered(lint, "corr-lint", [kept.name])
    return [linted] + [answered(where, refusal, "FILE", file) for refusal in refusals_of(file)]


def damaged():
    drawn, tools = random.Random(2), (loaded("corr-lint").lint, loaded("corr-where").places)
    linted = []
    for path in EXAMPLES:
        files = [file for _ in range(10) for file in damages(path.read_bytes(), drawn)]
        came = [(file, answers_to(file, *tools)) for file in files]
        linted += [answers[0] for _, answers in came]
        yield f"{path.name} damaged: an answer or a refusal", [each for each in came if not set(each[1]) <= {True, None}], []
    yield "some damaged files are games, and some aren't", min(linted.count(True), linted.count(None)) > 50, True


PARTS = (warnings, judged, chances, last_lines, refused, damaged)
