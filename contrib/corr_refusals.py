"""What a refusal of `corr` names: the places in its file, what was to come there, and the slip that is seen there. The script corr-where
and the module corr_game show them."""
import re
from collections import namedtuple

from corr_places import head, marked, stop, within
from corr_report import WHITE, Bad, plain, read_game, read_report
from corr_slips import TRIANGLE_HINT, outcome_hint, payoffs_hint, report_hint, set_hint, syntax_hint, tree_hint

SYNTAX = re.compile(r"refused Syntax byte ([0-9]{1,20})")
REPORT = re.compile(r"refused Report byte ([0-9]{1,20})")
NODE = re.compile(r"refused ([A-Za-z]+) node ([0-9]{1,20})")
FORGETS = re.compile(r"refused Forgets player ([12]) set ([0-9]+) nodes ([0-9]{1,20}) ([0-9]{1,20})")
SETS = re.compile(r"refused Triangle sets ([0-9]+) ([0-9]+) ([0-9]+) ([0-9]+)")
PLAYERS = re.compile(r"refused Players [0-9]+")
SHOWN = 100  # the most signs of a line that isn't understood

# The rules about one node that have a hint, from the file, its nodes, and the node.
HINTS = {
    "PayoffCount": lambda data, nodes, node: payoffs_hint(data, node),
    "SetDiffers": lambda data, nodes, node: set_hint(nodes, node.player, node.number) if node.kind != "t" else None,
    "OutcomeDiffers": lambda data, nodes, node: outcome_hint(nodes, node.outcome),
}

Place = namedtuple("Place", "at said hint", defaults=[None])


def places(refusal, path, data):
    """The places that a refusal names: the byte of each, what is said of it, and a hint."""
    match = REPORT.fullmatch(refusal)
    if match:
        return [report_place(refusal, path, data, int(match[1]))]
    start = game_start(data)
    match = SYNTAX.fullmatch(refusal)
    if match:
        return [syntax_place(refusal, path, data, start, int(match[1]))]
    return [place._replace(at=start + place.at) for place in game_places(refusal, data[start:])]


def game_places(refusal, data):
    """The places of a refusal by a game's nodes, sets or players."""
    match = NODE.fullmatch(refusal)
    if match:
        return [node_place(refusal, data, match[1], int(match[2]))]
    match = FORGETS.fullmatch(refusal)
    if match:
        player, number, one, other = match.groups()
        hint = set_hint(read_game(data).nodes, player, number)
        return [Place(node_byte(data, int(k)), f"{refusal}: node {k}", hint if k == other else None) for k in (one, other)]
    match = SETS.fullmatch(refusal)
    if match:
        found = [set_place(refusal, data, side, number) for side, number in zip("1122", match.groups())]
        return found if any(place.hint for place in found) else found[:-1] + [found[-1]._replace(hint=TRIANGLE_HINT)]
    if PLAYERS.fullmatch(refusal):
        return [Place(read_game(data).players_at, refusal)]
    raise Bad(no_place(refusal))


def no_place(refusal):
    if refusal.startswith("corr-report "):
        return "no refusal: this is a report, so the game was accepted"
    line = refusal.split("\n")[0][:SHOWN]
    if refusal.startswith("refused "):
        return f"this refusal names no place in the file: {line}"
    return f"no refusal: {line or 'nothing was given'}"


def game_start(data):
    """Where the game begins: at the end of the report that comes first, or else at the first byte."""
    if not data.startswith(b"corr-report "):
        return 0
    try:
        return len(data) - len(read_report(data)[1])
    except Bad:
        return 0


def report_place(refusal, path, data, at):
    if at and WHITE.sub(b"", data).startswith(b"EFG"):
        raise Bad(f"byte {at} is in a report, and {path} begins with a game: give the file that corr check read")
    return Place(within(path, data, at), refusal, report_hint(data, at))


def syntax_place(refusal, path, data, start, at):
    """The place in a game, which may follow a report: its bytes count from the report's end."""
    found = stop(data[start:])
    if start and at == 0 and (found is None or found[0]):
        start, found = 0, stop(data)  # corr solve was given the whole file
    game = data[start:]
    within(f"the game in {path}" if start else path, game, at)
    if found is None or found[0] != at:
        return Place(start + at, refusal)
    hint = syntax_hint(game, *found)
    if start and not WHITE.sub(b"", game):
        hint = "no game follows the report: corr check reads a report and its game's file after it"
    return Place(start + at, f"{refusal}: {found[1]} was to come", hint)


def node_place(refusal, data, rule, k):
    """Where a node is, and for some rules a hint."""
    at, nodes = node_byte(data, k), read_game(data).nodes
    hint = tree_hint(data) if rule in ("MissingNode", "ExtraNode") else None
    if rule in HINTS and k < len(nodes):
        hint = HINTS[rule](data, nodes, nodes[k])
    return Place(at, f"{refusal}: node {k}", hint)


def node_byte(data, k):
    """Where a node begins; the file's end for the node that is missing after the last one."""
    nodes = read_game(data).nodes
    if k > len(nodes):
        raise Bad(f"the file has no node {k}, only {len(nodes)}")
    return nodes[k].at if k < len(nodes) else len(data.rstrip(b"\t\n\v\f\r "))


def set_place(refusal, data, player, number):
    game = read_game(data)
    for place in game.sets[int(player)]:
        if place.number == number:
            said = f"{refusal}: set {number} of player {player}"
            return Place(game.nodes[place.node].at, said, set_hint(game.nodes, player, number))
    raise Bad(f"player {player} has no set {number} in this file")


def shown(path, data, place):
    """A place as text: where it is and what is said of it, its line, and a hint."""
    hint = f"hint: {plain(place.hint)}\n" if place.hint else ""
    return f"{head(path, data, place.at)}: {place.said}\n{marked(data, place.at)}{hint}"
