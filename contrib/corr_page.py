"""The page of corr-page: its HTML from the template in corr_page.html, the data for its script, and what is there without a script."""
import json
from html import escape
from pathlib import Path
from string import Template

from corr_drawing import SWATCH, swatch
from corr_layout import MINUS, rounded
from corr_legend import FULL_NAMES, counted
from corr_picture import groups
from corr_report import Bad, plain, player_names, point_text, read_bytes
from corr_scene import scene

FOLDER = Path(__file__).resolve().parent
UNTITLED = "Payoffs in correlated equilibrium"
MISSING = {"empty": "none exists", "toowide": "not answered (toowide)"}


def page_of(blocks, game):
    """The page as a text. The game's names are in it as escaped HTML and as data, and nowhere else."""
    for block in blocks:
        check_corners(block)
    if not groups(blocks):
        raise Bad("the report has no polygon to draw")
    names = [plain(name) for name in player_names(game)]
    picture = scene(blocks, names, in_words(blocks))
    parts = {
        "title": escape(plain(game.title) or UNTITLED),
        "picture": picture.svg,
        "notions": "\n".join(choices(blocks)),
        "fields": "".join(map(field, names)),
        "heads": "".join(head(name) for name in names),
        "corners": "\n".join(corner_table(block, names) for block in blocks if block.kind == "found"),
        "data": as_json(data_of(blocks, game, names, picture.axes)),
        "style": file_text("corr_page.css"),
        "script": file_text("corr_exact.js") + file_text("corr_page.js"),
    }
    return Template(file_text("corr_page.html")).substitute(parts)


def file_text(name):
    return read_bytes(str(FOLDER / name)).decode("utf-8")


# The corners have to be those of a polygon: the page names sides and mixes corners


def check_corners(block):
    points = [corner.point for corner in block.corners]
    for k, (start, end) in enumerate(zip(points, points[1:] + points[:1])):
        if len(points) > 1 and not all(is_left(start, end, point) for point in points if point not in (start, end)):
            raise Bad(f"the corners of {block.notion} don't go counter-clockwise round a polygon, first seen after corner {k}")
    if len(set(points)) < len(points):
        raise Bad(f"{block.notion} has one corner twice")


def is_left(start, end, point):
    """Whether the point lies to the left of the way from start to end."""
    across, up = end[0] - start[0], end[1] - start[1]
    return across * (point[1] - start[1]) - up * (point[0] - start[0]) > 0


# What is there without a script


def in_words(blocks):
    """What the picture shows, for readers who can't see it."""
    listed = [(block.notion.upper(), " ".join(point_text(corner.point) for corner in block.corners) or block.kind) for block in blocks]
    return "Polygons of expected payoffs, by their corners. " + "; ".join(f"{name}: {corners}" for name, corners in listed)


def choices(blocks):
    """A radio button for each notion, with the look of its polygon; the first one that has a polygon is chosen."""
    looks = {notion: (notions[0], len(points)) for notions, points in groups(blocks) for notion in notions}
    first = next(block.notion for block in blocks if block.kind == "found")
    for block in blocks:
        state = " checked" if block.notion == first else "" if block.kind == "found" else " disabled"
        said = counted(len(block.corners)) if block.kind == "found" else MISSING[block.kind]
        words = f"<b>{block.notion.upper()}</b> {FULL_NAMES[(block.notion,)]}, {said}"
        radio = f'<input type="radio" name="notion" value="{block.notion}"{state}>'
        yield f"<label>{radio}{swatch_of(*looks.get(block.notion, (None, 0)))}<span>{words}</span></label>"


def swatch_of(look, corners):
    """The shape and the mark of a notion; an empty place where it has none."""
    parts = swatch(look, corners, 2, 13) if look else ()
    width = SWATCH + 34
    return f'<svg class="swatch" viewBox="0 0 {width} 26" width="{width}" height="26" aria-hidden="true">{"".join(parts)}</svg>'


def field(name):
    """Where the payoff of a player stands, and can be typed."""
    return f'<label>{escape(name)} <input type="text" maxlength="80" spellcheck="false" autocomplete="off"><small></small></label>'


def head(name):
    return f'<th scope="col">{escape(name)}</th>'


def corner_table(block, names):
    """The corners of a notion. The script makes buttons of their numbers."""
    cells = ("".join(map(payoff_cell, corner.point)) for corner in block.corners)
    rows = (f'<tr><th scope="row">corner {k}</th>{both}</tr>' for k, both in enumerate(cells))
    heads = f"<thead><tr><td></td>{''.join(map(head, names))}</tr></thead>"
    caption = f"<caption>Corners of {block.notion.upper()}</caption>"
    return f'<table class="corners" id="corners-{block.notion}">{caption}{heads}<tbody>\n{chr(10).join(rows)}\n</tbody></table>'


def payoff_cell(value):
    """A payoff, with its decimal where it is no whole number."""
    decimal = "" if value.denominator == 1 else f" <small>{rounded(value)}</small>"
    return f"<td>{str(value).replace('-', MINUS)}{decimal}</td>"


# The data for the script: all numbers are exact, but for places on the picture


def data_of(blocks, game, names, axes):
    return {
        "players": names,
        "sets": [[set_data(each, game.sets[player]) for each in game.sets[player]] for player in (1, 2)],
        "axes": [axis_data(axis) for axis in axes],
        "notions": {block.notion: [corner_data(corner) for corner in block.corners] for block in blocks if block.kind == "found"},
    }


def set_data(each, sets):
    """The names of a set and its actions. The set of a player who has no other one needs no name."""
    name = "" if len(sets) == 1 and not each.name else called(each.name, f"set {each.number}", [other.name for other in sets])
    return {"name": name, "actions": [called(action, f"action {k}", each.actions) for k, action in enumerate(each.actions, 1)]}


def called(name, number, names):
    """A name, with its number where others have the same one; the number alone where it has none."""
    if not plain(name).strip():
        return number
    return plain(name) if names.count(name) == 1 else f"{plain(name)} ({number})"


def axis_data(axis):
    exact = {"least": axis.least, "step": axis.step, "lowest": axis.lowest, "highest": axis.highest}
    return {**{name: str(value) for name, value in exact.items()}, "start": axis.start, "unit": axis.unit}


def corner_data(corner):
    pairs = [[str(pair.weight), pair.one, pair.two] for pair in corner.pairs]
    return {"point": list(map(str, corner.point)), "total": str(corner.total), "pairs": pairs}


def as_json(data):
    """JSON in which no sign can end the element that has it."""
    text = json.dumps(data, separators=(",", ":"))
    return text.replace("<", "\\u003c").replace(">", "\\u003e").replace("&", "\\u0026")
