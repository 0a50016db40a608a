"""Reports and game files as the tools beside `corr` read them, and what these tools share at the command line.

A report is read in the whole of its format, a game file by its grammar alone: whether a report is true, and whether `corr` accepts a game,
is for `corr` to say. What corr-plans writes is read as a report. docs/FORMATS.md has all these formats.
"""
import argparse
import os
import re
import signal
import sys
from collections import namedtuple
from fractions import Fraction

NOTIONS = ("efce", "efcce", "nfcce")

BAD_INPUT, BAD_WORDS, NO_PROGRAM, UNREADABLE, UNWRITABLE = 2, 64, 69, 72, 74
QUOTED = 40  # the most signs of a line that a refusal repeats


class Bad(Exception):
    """What a tool refuses, as its line says it, and the status that the tool ends with."""

    def __init__(self, line, status=BAD_INPUT):
        super().__init__(line)
        self.status = status


class Unread(Bad):
    """A game file breaks off or stops being one: at which byte, and what was to come there."""

    def __init__(self, at, awaited):
        super().__init__(f"byte {at} of the game: {awaited} was to come")
        self.at, self.awaited = at, awaited


# Reports

Report = namedtuple("Report", "scales blocks")
Block = namedtuple("Block", "notion kind corners sides")  # the kind is found, empty or toowide; only a found block has corners and sides
Corner = namedtuple("Corner", "point total pairs")
Pair = namedtuple("Pair", "weight one two")  # a plan is a list of actions from 1, None where it never gets there
Side = namedtuple("Side", "direction corner")  # the direction is of scaled payoffs; the corner is a number

WIDTH = 38  # the most digits of a report's numbers, which are below 2^126
DIGITS = 4000  # the most digits of a number that corr-plans writes
NOT_PROVED = "from the definition, not proved"  # the second line of what corr-plans writes

PLAN = "((?: (?:-|[1-9][0-9]?))*)"
TRIGGER = "player [12] (?:start|set [0-9]+(?: action [1-9][0-9]?)?)"


class _Numbers:
    """Patterns of numbers with up to this many digits."""

    def __init__(self, digits):
        self.natural = f"(?:0|[1-9][0-9]{{0,{digits - 1}}})"
        self.positive = f"([1-9][0-9]{{0,{digits - 1}}})"
        self.integer = f"(-?{self.natural})"
        self.fraction = f"(-?{self.natural}(?:/[1-9][0-9]{{0,{digits - 1}}})?)"
        self.list = f"(?: -?{self.natural})*"
        self.place = f"(?:{self.natural}|first|second|phase) {self.natural}"


class _Lines:
    """The lines of a report, or of another file that has lines of this form, taken one by one from the beginning of some bytes."""

    def __init__(self, data, name="the report"):
        self.data, self.name, self.at, self.number = data, name, 0, 0
        self.from_plans = data.startswith(b"corr-plans ")
        self.numbers = _Numbers(DIGITS if self.from_plans else WIDTH)

    def peek(self):
        end = self.data.find(b"\n", self.at)
        return None if end < 0 else self.data[self.at : end].decode("ascii", "replace")

    def take(self, pattern, what):
        """The groups of the next line, which has to be of this form."""
        line = self.peek()
        self.number += 1
        if line is None:
            rest = plain(self.data[self.at :][: 2 * QUOTED].decode("ascii", "replace"))
            within = f"within line {self.number}, {what}, after '{shortened(rest, QUOTED)}'"
            raise Bad(f"{self.name} ends {within if rest else f'before line {self.number}, {what}'}")
        match = re.fullmatch(pattern, line)
        if match is None:
            raise Bad(f"line {self.number} of {self.name} {_seen(line, what)}")
        self.at += len(line) + 1
        return match.groups()

    def fraction(self, word):
        value = Fraction(word)
        if word != ("0" if value == 0 else str(value)):
            raise Bad(f"line {self.number} of the report: {word} isn't in lowest terms")
        return value


def _seen(line, what):
    """What is wrong with a line in place of which something else was to come."""
    if line.endswith("\r"):
        return "ends with CR LF: a report's lines end with LF alone"
    return f"isn't {what}, but '{shortened(plain(line), QUOTED)}'"


def read_report(data):
    """The report that some bytes begin with, and the bytes that follow it."""
    lines = _Lines(data)
    first = lines.peek()
    if first is not None and first.startswith(("refused ", "usage: ")):
        raise Bad(f"no report: corr answered '{first}'")
    if lines.from_plans:
        lines.take("corr-plans 1", "'corr-plans 1'")
        lines.take(NOT_PROVED, f"'{NOT_PROVED}'")
    else:
        lines.take("corr-report 1", "'corr-report 1'")
    positive = lines.numbers.positive
    scales = tuple(map(int, lines.take(f"scale {positive} {positive}", "the scales")))
    blocks = [_block(lines, -1)]
    while lines.peek() != "end":
        blocks.append(_block(lines, NOTIONS.index(blocks[-1].notion)))
    lines.take("end", "'end'")
    return Report(scales, blocks), data[lines.at :]


def read_pairs(data, name):
    """The weighted pairs of plans of a file that has nothing else, each in three lines as in a report."""
    lines, pairs = _Lines(data if data.endswith(b"\n") else data + b"\n", name), []
    while not pairs or lines.peek() is not None:
        pairs.append(_pair(lines))
    return pairs


def _block(lines, before):
    notion, kind = lines.take("notion (efce|efcce|nfcce) (found|empty|toowide)", "the head of a notion's block or 'end'")
    if NOTIONS.index(notion) <= before:
        raise Bad(f"line {lines.number} of the report: {notion} stands twice or out of order")
    corners, sides = [], []
    numbers = lines.numbers
    if kind == "empty":
        lines.take(f"multipliers{numbers.list}", "a line of multipliers")
    elif kind == "toowide":
        lines.take(f"basis{numbers.list}", "a basis")
        lines.take(f"at {numbers.place}", "a place")
    else:
        count = int(lines.take(f"corners {numbers.positive}", "the number of corners")[0])
        for k in range(count):
            corners.append(_corner(lines, k))
        for _ in range(int(lines.take(f"sides {numbers.positive}", "the number of sides")[0])):
            sides.append(_side(lines, count))
    return Block(notion, kind, corners, sides)


def _corner(lines, k):
    numbers = lines.numbers
    point = f"{numbers.fraction} {numbers.fraction}"
    number, first, second, total, count = lines.take(
        f"corner ({numbers.natural}) {point} total {numbers.positive} pairs {numbers.positive}", f"corner {k}"
    )
    if int(number) != k:
        raise Bad(f"line {lines.number} of the report isn't corner {k}")
    point = lines.fraction(first), lines.fraction(second)
    pairs = []
    for _ in range(int(count)):
        pairs.append(_pair(lines))
    return Corner(point, int(total), pairs)


def _pair(lines):
    weight = int(lines.take(f"weight {lines.numbers.positive}", "a weight")[0])
    plans = [lines.take(f"{name}{PLAN}", f"a plan of player {name}")[0] for name in ("one", "two")]
    return Pair(weight, *([None if word == "-" else int(word) for word in plan.split()] for plan in plans))


def _side(lines, corners):
    numbers = lines.numbers
    head = f"side {numbers.integer} {numbers.integer} corner ({numbers.natural}) den {numbers.positive}"
    found = list(map(int, lines.take(f"{head} deviations ({numbers.natural})" if lines.from_plans else head, "a side")))
    if found[2] >= corners:
        raise Bad(f"line {lines.number} of the report: there is no corner {found[2]}")
    if not lines.from_plans:
        lines.take(f"first{numbers.list}", "a side's first multipliers")
        lines.take(f"second{numbers.list}", "a side's second multipliers")
    for _ in range(found[4] if lines.from_plans else 0):
        lines.take(f"weight {numbers.positive}", "a deviation's weight")
        lines.take(TRIGGER, "a deviation's trigger")
        lines.take(f"then{PLAN}", "a deviation's plan")
    return Side((found[0], found[1]), found[2])


# Game files

# The sets are those of player 1 and of player 2, by the order of their first nodes. `players_at` is the first byte of the list of players,
# `player_places` has that of each name in it.
Game = namedtuple("Game", "title players nodes sets players_at player_places")
# `at` is the node's first byte; `set_at` and `outcome_at` are those of its set's and its outcome's number.
Node = namedtuple("Node", "at kind name player number set_name actions probabilities outcome payoffs outcome_name set_at outcome_at")
Set = namedtuple("Set", "number name actions node")

WHITE = re.compile(rb"[\t-\r ]*")
TOKEN = re.compile(rb'(?P<text>"(?:[^"]|(?<=\\)")*(?<!\\)")|(?P<mark>[{},])|(?P<word>[^\t-\r "{},]+)')
WHOLE = re.compile(rb"[0-9]+")
NUMBER = re.compile(rb"[+-]?(?:[0-9]+(?:\.[0-9]*)?|\.[0-9]+|[0-9]+/[0-9]*[1-9][0-9]*)")


class _Tokens:
    """The tokens of a game file: the kind and bytes of the next one, and where it begins.

    `tried` has what could come here and didn't, in words.
    """

    def __init__(self, data):
        self.data = data
        self.end = 0
        self.step()

    def step(self):
        self.at = WHITE.match(self.data, self.end).end()
        match = TOKEN.match(self.data, self.at)
        self.kind, self.bytes = (match.lastgroup, match.group()) if match else (None, b"")
        self.end = match.end() if match else self.at
        self.tried = []

    def fail(self, *awaited):
        *others, last = self.tried + list(awaited)
        raise Unread(self.at, f"{', '.join(others)} or {last}" if others else last)

    def text(self, what):
        if self.kind != "text":
            self.fail(what)
        content = self.bytes[1:-1].decode("utf-8", "replace").replace('\\"', '"')
        self.step()
        return content

    def text_or_none(self, what):
        if self.kind == "text":
            return self.text(what)
        self.tried.append(what)
        return ""

    def word(self, pattern, what):
        if self.kind != "word" or not pattern.fullmatch(self.bytes):
            self.fail(what)
        word = self.bytes
        self.step()
        return word

    def whole(self, what):
        """The digits of a whole number, without leading zeros: it may have any number of them."""
        return self.word(WHOLE, what).decode().lstrip("0") or "0"

    def number(self, what):
        return self.word(NUMBER, what).decode()

    def mark(self, mark):
        """Whether the mark comes next; it is then passed."""
        if self.bytes != mark:
            self.tried.append(f"'{mark.decode()}'")
            return False
        self.step()
        return True


def read_game(data):
    """The names of a game file: title, players, nodes, and each player's sets."""
    tokens = _Tokens(data)
    for word in (b"EFG", b"2", b"R"):
        tokens.word(re.compile(word), f"'{word.decode()}'")
    title = tokens.text("the title")
    players_at = tokens.at
    players, places = _players(tokens)
    tokens.text_or_none("a comment")
    nodes = _nodes(tokens)
    return Game(title, players, nodes, {side: _sets(nodes, side) for side in (1, 2)}, players_at, places)


def _players(tokens):
    """The players' names, and where each begins."""
    if not tokens.mark(b"{"):
        tokens.fail()
    players, places = [], []
    while not tokens.mark(b"}"):
        places.append(tokens.at)
        players.append(tokens.text("a player's name"))
    return players, places


def _nodes(tokens):
    nodes = []
    while tokens.at < len(tokens.data):
        nodes.append(_node(tokens))
    return nodes


def _node(tokens):
    at = tokens.at
    kind = tokens.word(re.compile(b"[cpt]"), "a node (c, p or t)").decode()
    name = tokens.text("the node's name")
    player = tokens.whole("the player's number") if kind == "p" else None
    number, set_name, actions, probabilities, set_at = None, "", [], [], tokens.at
    if kind != "t":
        called = "the set's" if kind == "p" else "the draw's"
        number, set_name = tokens.whole(f"{called} number"), tokens.text_or_none(f"{called} name")
        actions, probabilities = _actions(tokens, kind)
    outcome_at = tokens.at
    outcome, outcome_name, payoffs = _outcome(tokens)
    return Node(at, kind, name, player, number, set_name, actions, probabilities, outcome, payoffs, outcome_name, set_at, outcome_at)


def _actions(tokens, kind):
    """A list of actions with its probabilities, as they are written; both are empty where the list is left out."""
    actions, probabilities = [], []
    if tokens.mark(b"{"):
        while not tokens.mark(b"}"):
            actions.append(tokens.text("an action"))
            if kind == "c":
                probabilities.append(tokens.number("a probability"))
    return actions, probabilities


def _outcome(tokens):
    """The outcome's number and name, and its payoffs as they are written, none where they are left out."""
    number, name, payoffs = tokens.whole("the outcome's number"), tokens.text_or_none("the outcome's name"), []
    if tokens.mark(b"{"):
        payoffs.append(tokens.number("a payoff"))
        while not tokens.mark(b"}"):
            tokens.mark(b",")
            payoffs.append(tokens.number("a payoff"))
    return number, name, payoffs


def _sets(nodes, side):
    sets = {}
    for k, node in enumerate(nodes):
        if node.player == str(side) and node.number not in sets:
            sets[node.number] = Set(node.number, node.set_name or node.name, node.actions, k)
    return list(sets.values())


# The command line


class Words(argparse.ArgumentParser):
    """The words of a tool. Words that it doesn't know are refused with one line."""

    def __init__(self, name, text, examples):
        super().__init__(
            prog=name, description=text, epilog=examples, allow_abbrev=False, formatter_class=argparse.RawDescriptionHelpFormatter
        )

    def error(self, message):
        raise Bad(f"{message}; {self.prog} --help says more", BAD_WORDS)

    def add_report(self, use):
        self.add_argument("report", nargs="?", default="-", metavar="REPORT", help="the report; standard input where it is '-' or left out")
        self.add_argument("--game", metavar="FILE", help=f"the game's file, {use}; it may also follow the report, as for corr check")

    def add_notion(self):
        self.add_argument("--notion", choices=NOTIONS, help="this notion's block alone")


class _Input:
    """Files and standard input, which can be read once."""

    taken = False


def read_bytes(path):
    """What a file holds, or standard input where the path is '-'."""
    if path == "-":
        if _Input.taken:
            raise Bad("standard input can be read only once: give one of the two as a file", BAD_WORDS)
        _Input.taken = True
    try:
        if path == "-":
            return sys.stdin.buffer.read()
        with open(path, "rb") as file:
            return file.read()
    except OSError as fault:
        raise Bad(f"{'standard input' if path == '-' else path}: {fault.strerror}", UNREADABLE) from None


def chosen(report, notion):
    """The blocks of a report, or that of one notion."""
    blocks = [block for block in report.blocks if notion in (None, block.notion)]
    if not blocks:
        raise Bad(f"the report has no block of {notion}")
    return blocks


def player_names(game):
    """What the two players are called: by the game, or player 1 and player 2."""
    if game is None:
        return "player 1", "player 2"
    if len(game.players) != 2:
        raise Bad(f"the game has {len(game.players)} players, not 2")
    return tuple(name or f"player {k}" for k, name in enumerate(game.players, 1))


def point_text(point):
    return f"({point[0]}, {point[1]})"


def shortened(text, length):
    """The text, with its end left out where it has more signs than that."""
    return text if len(text) <= length else text[: length - 1].rstrip() + "\u2026"


def plain(text):
    """A name on one line: line ends and other control characters become spaces."""
    return "".join(sign if sign.isprintable() else " " for sign in text)


def run(body):
    """Runs a tool. Its body takes the tool's name and the list of words, and gives the text or the bytes that it writes; or a pair of
    these and the status, which is 0 otherwise."""
    for quiet in (signal.SIGINT, signal.SIGPIPE):
        signal.signal(quiet, signal.SIG_DFL)
    name = os.path.basename(sys.argv[0])
    try:
        made = body(name, sys.argv[1:])
        made, status = made if isinstance(made, tuple) else (made, 0)
        sys.stdout.buffer.write(made if isinstance(made, bytes) else made.encode("utf-8", "replace"))
        sys.stdout.buffer.flush()
    except Bad as bad:
        print(f"{name}: {plain(str(bad))}", file=sys.stderr)
        sys.exit(bad.status)
    except OSError as fault:
        print(f"{name}: standard output: {fault.strerror}", file=sys.stderr, flush=True)
        os._exit(UNWRITABLE)  # without the flush that would fail once more
    else:
        sys.exit(status)
