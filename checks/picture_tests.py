"""Tests of corr-plot's pictures. What a picture shows is read back from its elements, and each text's box is worked out from its place and
size with widths of this module's own."""
import os
import random
import re
import shutil
import subprocess
import sys
import tempfile
import xml.etree.ElementTree as ElementTree
from fractions import Fraction
from itertools import combinations
from math import hypot
from pathlib import Path

from scripts import script

ROOT = Path(__file__).resolve().parent.parent
TOOL = ROOT / "contrib" / "corr-plot"
SAMPLES = ROOT / "checks" / "samples"
MINUS = "\u2212"

# How wide signs are in DejaVu Sans, as its file has it, in thousandths of the size. Bold letters are up to an eighth wider.
GROUPS = {275: "'", 278: "ijl", 295: "IJ", 318: " ,.", 337: "/:;|", 352: "f", 361: "-", 392: "()[]t", 401: "!", 411: "r", 460: '"'}
GROUPS.update({521: "z", 525: "s", 531: "?", 550: "c", 557: "L", 579: "Fk", 592: "vxy", 603: "P", 611: "TY", 613: "ao", 616: "e"})
GROUPS.update({635: "ESbdghnpqu", 637: "0123456789", 656: "K", 685: "AVZ", 695: "BRX", 698: "C", 732: "U", 752: "HN", 775: "DG"})
GROUPS.update({780: "&", 788: "OQ"})
GROUPS.update({818: "w", 838: "=<>\u2212\u2248", 863: "M", 974: "m", 989: "W", 1000: "\u2026"})
WIDTHS = {sign: thousandths / 1000 for thousandths, signs in GROUPS.items() for sign in signs}


def sample(name):
    return (SAMPLES / f"{name}.report").read_text()


def game_of(name):
    return str(SAMPLES / f"{name}.efg")


def plot(*words, text="", path=None):
    """What corr-plot writes to both its outputs, and its status; `path` is where it looks for programs."""
    place = {**os.environ, "PATH": path or os.environ["PATH"]}
    ended = subprocess.run([sys.executable, str(TOOL), *words], input=text.encode(), capture_output=True, check=False, env=place)
    return ended.stdout, ended.stderr.decode(), ended.returncode


def corners(report):
    """The points of a report's corners by notion, read by this check's own means."""
    found, notion = {}, None
    for line in report.splitlines():
        words = line.split()
        if words[0] == "notion":
            notion = words[1]
        if words[0] == "corner":
            found.setdefault(notion, []).append((words[2], words[3]))
    return found


def label_of(point):
    return f"({point[0]}, {point[1]})".replace("-", MINUS)


class Picture:
    """An SVG picture taken apart: its texts with their places, and the shapes of its polygons."""

    def __init__(self, svg):
        self.tree = ElementTree.fromstring(svg)
        self.elements = [(e.tag.split("}")[1], e) for e in self.tree.iter()]
        written = [e for kind, e in self.elements if kind == "text"]
        self.texts = [(e.text, float(e.get("x")), float(e.get("y"))) for e in written]
        self.boxes = [(e.get("class"), e.text, box_of(e)) for e in written]
        drawn = [e for kind, e in self.elements if kind in ("polygon", "polyline") and e.get("fill") != "none"]
        self.shapes = [[tuple(map(float, place.split(","))) for place in e.get("points").split()] for e in drawn]
        self.fills = [e.get("fill") for e in drawn]
        self.dashes = [e.get("stroke-dasharray") for e in drawn]
        self.crosses = [e for kind, e in self.elements if kind == "path" and e.get("stroke") != "#ffffff"]
        lines = [e for kind, e in self.elements if kind == "line" and e.get("stroke") == "#555555"]
        self.leaders = [tuple((float(e.get(f"x{end}")), float(e.get(f"y{end}"))) for end in (1, 2)) for e in lines]
        self.said = next(e.text for kind, e in self.elements if kind == "desc")
        self.size = tuple(float(side) for side in self.tree.get("viewBox").split()[2:])
        frame = next(e for _, e in self.elements if e.get("class") == "frame")
        left, top, width, height = (float(frame.get(name)) for name in ("x", "y", "width", "height"))
        self.frame = left, top, left + width, top + height

    def place_of(self, text):
        return [(x, y) for words, x, y in self.texts if words == text]

    def of_class(self, name):
        return [(words, box) for kind, words, box in self.boxes if kind == name]


def box_of(text):
    """The box of a text element, turned where the text is turned up."""
    size, x, y = (float(text.get(name)) for name in ("font-size", "x", "y"))
    width = size * sum(WIDTHS.get(sign, 1) for sign in text.text) * (1.125 if text.get("font-weight") == "bold" else 1)
    start = {"start": 0, "middle": -width / 2, "end": -width}[text.get("text-anchor")]
    if text.get("transform"):
        return x - 0.76 * size, y + start, x + 0.14 * size, y + start + width
    return x + start, y - 0.76 * size, x + start + width, y + 0.14 * size


def meet(one, two):
    return one[0] < two[2] and two[0] < one[2] and one[1] < two[3] and two[1] < one[3]


def lies_in(inner, outer):
    return inner[0] >= outer[0] and inner[1] >= outer[1] and inner[2] <= outer[2] and inner[3] <= outer[3]


def is_to_scale(points, places):
    """Whether the places are the points on two straight axes, the first to the right, the second up."""
    for k, sign in ((0, 1), (1, -1)):
        values = [float(Fraction(point[k])) for point in points]
        low, high = values.index(min(values)), values.index(max(values))
        if values[low] == values[high]:
            continue
        unit = (places[high][k] - places[low][k]) / (values[high] - values[low])
        if sign * unit <= 0 or any(abs(places[low][k] + unit * (v - values[low]) - place[k]) > 0.05 for v, place in zip(values, places)):
            return False
    return True


def lightness(fill):
    red, green, blue = (int(fill[k : k + 2], 16) / 255 for k in (1, 3, 5))
    return 0.3 * red + 0.59 * green + 0.11 * blue


def nearest(picture, label, places):
    """The corner that is nearest to the label."""
    boxes = [box for words, box in picture.of_class("label") if words == label]
    if not boxes:
        return None
    left, top, right, bottom = boxes[0]
    reaches = {name: hypot(max(left - x, x - right, 0), max(top - y, y - bottom, 0)) for name, (x, y) in places.items()}
    return min(reaches, key=reaches.get)


# Pictures of the samples

# A picture's name, its sample, the words, and the rows of the legend: Chicken's polygons are equal.
DRAWN = [("Chicken", "chicken", [], 1), ("the coin", "coin", [], 3), ("steps", "steps", [], 3)]
DRAWN += [("the coin, stretched", "coin", ["--stretch"], 3)]


def samples():
    for name, file, words, rows in DRAWN:
        report = sample(file)
        svg, err, status = plot(*words, text=report)
        yield f"{name}: a picture", (err, status), ("", 0)
        picture = Picture(svg)
        found = corners(report)
        labels = {label_of(point) for points in found.values() for point in points}
        yield f"{name}: each point has one label", {label: len(picture.place_of(label)) for label in labels}, dict.fromkeys(labels, 1)
        yield f"{name}: in words", all(f"({x}, {y})" in picture.said for points in found.values() for x, y in points), True
        shapes = list(dict.fromkeys(tuple(points) for points in reversed(list(found.values()))))
        yield f"{name}: the shapes are to scale", [is_to_scale(*both) for both in zip(shapes, picture.shapes)], [True] * len(shapes)
        yield f"{name}: one shape for equal polygons", len(picture.shapes), len(shapes)
        places = {label_of(point): place for points, shape in zip(shapes, picture.shapes) for point, place in zip(points, shape)}
        yield f"{name}: a label is nearest to its own corner", [label for label in labels if nearest(picture, label, places) != label], []
        legend = [words for words, _ in picture.of_class("legend") if re.match("(EFCE|EFCCE|NFCCE)( = .*)?: ", words)]
        yield f"{name}: a row for each polygon and each notion without one", len(legend), rows


def looks():
    coin = sample("coin")
    picture = Picture(plot(text=coin)[0])
    shades = [lightness(fill) for fill in picture.fills]
    yield "fills that differ without colours", [light - dark > 0.1 for light, dark in zip(shades, shades[1:])], [True, True]
    yield "lines that differ without colours", len(set(picture.dashes)), 3
    odd = 'a <b> & "c" \x01\u2028'
    yield "a title with signs of its own", Picture(plot("--title", odd, text=coin)[0]).of_class("title")[0][0], 'a <b> & "c"'
    lines = Picture(plot("--title", "word " * 40, text=coin)[0])
    wanted = ["word " * 10 + "word"] * 3 + ["word " * 6 + "word"]
    yield "a long title, in lines", ([words for words, _ in lines.of_class("title")], lines.size[0] < 800), (wanted, True)
    titled = Picture(plot("--game", game_of("chicken"), text=sample("chicken"))[0])
    heads = ("Chicken", "expected payoff of Row", "expected payoff of Column")
    yield "the game's names", [len(titled.place_of(head)) for head in heads], [1, 1, 1]
    stored = plot("--stretch", "--game", game_of("coin"), text=coin)[0].decode()
    yield "docs/coin.svg is the coin's picture", (ROOT / "docs" / "coin.svg").read_text() == stored, True


# Pictures of drawn polygons


def written(polygons):
    """A report with these polygons, as far as a picture needs one: by notion the corners."""
    lines = ["corr-report 1", "scale 1 1"]
    for notion, points in polygons.items():
        lines += [f"notion {notion} found", f"corners {len(points)}"]
        lines += [f"corner {k} {x} {y} total 1 pairs 1\nweight 1\none 1\ntwo 1" for k, (x, y) in enumerate(points)]
        lines += ["sides 1", "side 1 0 corner 0 den 1", "first 0", "second 0"]
    return "\n".join([*lines, "end"]) + "\n"


def turn(one, two, three):
    return (two[0] - one[0]) * (three[1] - one[1]) - (two[1] - one[1]) * (three[0] - one[0])


def half(points):
    """The corners from the first point to the last that leave all points on the left."""
    kept = []
    for point in points:
        while len(kept) > 1 and turn(kept[-2], kept[-1], point) <= 0:
            kept.pop()
        kept.append(point)
    return kept


def hull(points):
    """The corners of the points' hull as a report lists them: counter-clockwise from the greatest first payoff, then second."""
    points = sorted(set(points))
    found = half(points)[:-1] + half(points[::-1])[:-1] or points
    start = found.index(max(found))
    return found[start:] + found[:start]


def drawn_points(draw, count):
    """Points on and in an ellipse, with denominators of very different lengths."""
    wide, high = draw.choice([1, 10, 100, 1000]), draw.choice([1, 10, 30, 100])
    found = []
    while len(found) < count:
        x, y = draw.uniform(-1, 1), draw.uniform(-1, 1)
        if 0.8 < x * x + y * y < 1:
            tops = (x + 0.4) * wide, (y + 0.4) * high
            bottoms = [draw.choice([1, 2, 7, 12, 535, 53841, 1474955]) for _ in range(2)]
            found.append(tuple(Fraction(round(top * bottom), bottom) for top, bottom in zip(tops, bottoms)))
    return found


def drawn_polygons(seed):
    """Up to three nested polygons of 2 to 20 corners."""
    draw = random.Random(seed)
    found = [hull(drawn_points(draw, draw.choice([2, 4, 8, 20, 40])))[:20]]
    for _ in range(draw.randrange(3)):
        outer = found[-1]
        odds = [Fraction(draw.randrange(1, 8), 8) for _ in outer]
        middle = tuple(sum(point[k] for point in outer) / len(outer) for k in (0, 1))
        within = [tuple(m + share * (p - m) for m, p in zip(middle, point)) for share, point in zip(odds, outer)]
        found.append(hull(within + draw.sample(outer, len(outer) // 3)))
    return dict(zip(("nfcce", "efcce", "efce"), found))


def faults(svg):
    """Texts that meet, labels that leave the frame or cover a corner, and texts that leave the picture."""
    picture = Picture(svg)
    places = {place for shape in picture.shapes for place in shape}
    yield from (("meet", one[1], two[1]) for one, two in combinations(picture.boxes, 2) if meet(one[2], two[2]))
    for words, (left, top, right, bottom) in picture.of_class("label"):
        if not lies_in((left, top, right, bottom), picture.frame):
            yield "beyond the frame", words
        if any(left - 4 < x < right + 4 and top - 4 < y < bottom + 4 for x, y in places):
            yield "over a corner", words
    yield from (("beyond the picture", words) for _, words, box in picture.boxes if not lies_in(box, (0, 0, *picture.size)))


def covers(box, shape):
    """Whether a box and the inside of a polygon meet: no side of either parts them."""
    left, top, right, bottom = box
    angles = [(left, top), (left, bottom), (right, top), (right, bottom)]
    across, up = zip(*shape)
    if max(across) <= left or min(across) >= right or max(up) <= top or min(up) >= bottom:
        return False
    edges = zip(shape, shape[1:] + shape[:1])
    return not any(all(turn(*edge, angle) >= 0 for angle in angles) for edge in edges)


def on_the_shape(svg, report):
    """The labels of the greatest polygon's corners that lie on it; labels are payoffs, exact or not, or numbers."""
    picture, found = Picture(svg), corners(report)
    points = list(dict.fromkeys(point for block in found.values() for point in block))
    outer = {label_of(point) for point in found["nfcce"]} | {str(points.index(point)) for point in found["nfcce"]}
    shape = picture.shapes[0]
    return [words for words, box in picture.of_class("label") if words in outer and len(shape) > 2 and covers(box, shape)]


WAYS = [[], ["--labels", "exact"], ["--labels", "decimal"], ["--labels", "number"], ["--labels", "none"]]
COUNT = 40


def kept_as(file, report):
    file.write_text(report)
    return str(file)


def drawn():
    """Each drawn report in each way, within this process: it would take long otherwise."""
    tool = script("contrib/corr-plot")
    reports = [written(dict(reversed(list(drawn_polygons(seed).items())))) for seed in range(COUNT)]
    yield "drawn polygons of many corners", max(len(points) for report in reports for points in corners(report).values()), 20
    with tempfile.TemporaryDirectory() as place:
        for way in WAYS:
            pictures = [tool.plot("corr-plot", [*way, kept_as(Path(place) / "drawn.report", report)]) for report in reports]
            name = " ".join(way) or "by room"
            yield f"all texts in their places, {name}", [(seed, *fault) for seed, svg in enumerate(pictures) for fault in faults(svg)], []
            yield f"no outer corner's label on the shape, {name}", [on_the_shape(*both) for both in zip(pictures, reports)], [[]] * COUNT


# What the options ask for

POINT = {"efce": [(Fraction(5), Fraction(3, 2))], "efcce": [(Fraction(5), Fraction(3, 2))], "nfcce": [(Fraction(5), Fraction(3, 2))]}
LINE = {"efce": [(Fraction(5), Fraction(7, 2)), (Fraction(5), Fraction(-3, 2))]}
# Corners whose rounded payoffs are easily worked out, and a sliver of a triangle whose exact payoffs would take a metre.
ROUNDED = {"efce": [(Fraction(123456, 7), Fraction(-2, 3)), (Fraction(99999, 10000), Fraction(1, 8)), (Fraction(1, 30000), Fraction(0))]}
LONG = {"efce": [(Fraction(3) + Fraction(1, 10**30 + k), Fraction(k * k, 10**30 + 1)) for k in (1, 2, 4)]}


# More corners on a circle than labels find room round it: the points of a half circle in the usual way, and their mirror images.
HALF = [(Fraction(1 - t * t, 1 + t * t), Fraction(2 * t, 1 + t * t)) for t in (Fraction(k, 20) for k in range(-19, 21))]
CROWD = hull(HALF + [(-x, -y) for x, y in HALF])


def labels():
    decimal = Picture(plot("--labels", "decimal", text=written(ROUNDED))[0])
    wanted = {"(\u224817637, \u2248\u22120.6667)", "(\u224810, 0.125)", "(\u22480.00003333, 0)"}
    yield "rounded payoffs", {words for words, _ in decimal.of_class("label")}, wanted
    chicken = sample("chicken")
    picture = Picture(plot("--labels", "number", text=chicken)[0])
    places = dict(zip("0123", picture.shapes[0]))
    yield "each number is at its corner", [nearest(picture, label, places) for label in "0123"], list("0123")
    table = [words for words, _ in picture.of_class("table")]
    wanted = ["0", "(7, 2)", "(7, 2)", "1", "(21/4, 21/4)", "(5.25, 5.25)", "2", "(2, 7)", "(2, 7)", "3", "(18/5, 18/5)", "(3.6, 3.6)"]
    yield "the table of the corners", table, ["Corners: number, payoffs, rounded", *wanted]
    coin = [words for words, _ in Picture(plot("--labels", "number", text=sample("coin"))[0]).of_class("table")]
    yield "corners of several polygons by their numbers in the report", coin[8], "EFCE 1, EFCCE 3, NFCCE 3"
    none = Picture(plot("--labels", "none", text=chicken)[0])
    yield "no labels", (none.of_class("label"), none.of_class("table"), "(21/4, 21/4)" in none.said), ([], [], True)
    yield "a sliver of a triangle has numbers by itself", numbered(), (["0", "1", "2"], True)
    asked = Picture(plot("--labels", "exact", text=written(LONG))[0]).of_class("label")
    yield "and exact labels where they are asked for", {words for words, _ in asked}, {f"({x}, {y})" for x, y in LONG["efce"]}
    crowd = Picture(plot(text=written({"efce": CROWD}))[0])
    yield "a crowd of corners has exact labels, each led to from its corner", led_to(crowd), sorted(label_of(point) for point in CROWD)
    steps = Picture(plot(text=sample("steps"))[0])
    written_minus = [words for kind, words, _ in steps.boxes if kind in ("tick", "label") and "-" in words]
    said = bool(steps.place_of(f"({MINUS}1/3, 4/3)")), "(-1/3, 4/3)" in steps.said
    yield "one minus sign in the picture, and '-' in words", (written_minus, *said), ([], True, True)


def led_to(picture):
    """The labels at the ends of lines that begin at their own corners."""
    places = {(round(x, 1), round(y, 1)): label_of(point) for (x, y), point in zip(picture.shapes[0], CROWD)}
    found = []
    for start, (x, y) in picture.leaders:
        ended = [words for words, box in picture.of_class("label") if box[0] - 9 < x < box[2] + 9 and box[1] < y < box[3]]
        found += [words for words in ended if places.get((round(start[0], 1), round(start[1], 1))) == words]
    return sorted(found)


def numbered():
    picture = Picture(plot(text=written(LONG))[0])
    exact = {f"({x}, {y})" for x, y in LONG["efce"]}
    return sorted(words for words, _ in picture.of_class("label")), exact <= {words for words, _ in picture.of_class("table")}


def steps_of(picture):
    """The distances between the numbers of both axes."""
    ticks = [(words, box) for words, box in picture.of_class("tick")]
    across = [words for words, box in ticks if box[1] > picture.frame[3]]
    up = [words for words, box in ticks if box[1] <= picture.frame[3]]
    values = [[Fraction(words.replace(MINUS, "-")) for words in axis] for axis in (across, up)]
    return [{one - other for one, other in zip(axis[1:], axis)} for axis in values]


def sizes():
    coin = sample("coin")
    plain, scaled = Picture(plot(text=coin)[0]), Picture(plot("--width", "300", text=coin)[0])
    height = abs(float(scaled.tree.get("height")) - 300 * plain.size[1] / plain.size[0]) < 0.01
    yield "a width", (scaled.tree.get("width"), height, scaled.size, scaled.boxes), ("300", True, plain.size, plain.boxes)
    for size in ("8", "22", "40"):
        svg = plot("--font-size", size, text=coin)[0]
        ticks = {e.get("font-size") for _, e in Picture(svg).elements if e.get("class") == "tick"}
        yield f"texts of size {size}", (list(faults(svg)), ticks), ([], {size})
    bare = Picture(plot("--no-legend", "--title", "", text=coin)[0])
    yield "no legend", (bare.of_class("legend"), bare.size[1] < bare.frame[3] + 70), ([], True)
    yield "no band for an empty title", (bare.of_class("title"), bare.frame[1] < 20), ([], True)
    yield "names of 80 letters", *long_names(sample("chicken"))


def legends():
    point = Picture(plot(text=written(POINT))[0])
    yield "one row for equal notions", [words.split(":")[0] for words, _ in point.of_class("legend")], ["EFCE = EFCCE = NFCCE"]
    for name, polygons in (("a point", POINT), ("a vertical line", LINE)):
        picture = Picture(plot(text=written(polygons))[0])
        yield f"{name}: the frame is as wide as the legend", max(box[2] for _, box in picture.of_class("legend")) <= picture.frame[2], True


def distances():
    for name, report in (("Chicken", sample("chicken")), ("the coin", sample("coin")), ("a line", written(LINE))):
        across, up = steps_of(Picture(plot(text=report)[0]))
        yield f"{name}: both axes have numbers at one distance", (across == up, len(across)), (True, 1)
    across, up = steps_of(Picture(plot("--stretch", text=sample("coin"))[0]))
    yield "two scales, two distances", across == up, False


def long_names(report):
    names = "Ministry of Agriculture " * 4, "W" * 80
    file = Path(game_of("chicken")).read_text().replace('"Row"', f'"{names[0][:80]}"').replace('"Column"', f'"{names[1]}"')
    svg = plot(text=report + file)[0]
    ends = [words[-1] for words, _ in Picture(svg).of_class("axis")]
    return (list(faults(svg)), len(ends), ends[-1]), ([], 4, "\u2026")


# Feasible payoffs and Nash equilibria


def payoffs():
    # The corners: in Chicken all four pairs; the coin's are the means of one corner after heads and one after tails.
    for name, hull_said, nash in (
        ("chicken", "(0, 0) (7, 2) (6, 6) (2, 7)", "(2, 7) (7, 2)"),
        ("coin", "(-1/2, 1/2) (0, 0) (3, 0) (5/2, 1/2)", "(3, 0)"),
    ):
        svg, err, status = plot("--payoffs", "--game", game_of(name), text=sample(name))
        picture = Picture(svg)
        said = picture.said.split("; ")[-2:]
        wanted = [f"feasible payoffs: {hull_said}", f"pure Nash equilibria: {nash}"]
        yield f"{name}: feasible payoffs and Nash equilibria", (said, err, status), (wanted, "", 0)
        yield f"{name}: marks of Nash equilibria, with one in the legend", len(picture.crosses), nash.count("(") + 1
        points = [tuple(point.split(", ")) for point in hull_said[1:-1].split(") (")]
        yield f"{name}: the feasible payoffs are to scale, below the rest", is_to_scale(points, picture.shapes[0]), True
        yield f"{name}: all in its place", list(faults(svg)), []
        inside = [place for shape in picture.shapes for place in shape if not lies_in((*place, *place), picture.frame)]
        yield f"{name}: the frame has all shapes", inside, []
    refused = "corr-plot: --payoffs goes through 200000 pairs of plans at most, and this game has more\n"
    for count, wanted in ((8, ("", 0)), (9, (refused, 2))):
        _, *came = plot("--payoffs", text=signals(count))
        yield f"feasible payoffs where each has 2^{count} plans", tuple(came), wanted
    out, err, status = plot("--payoffs", text=sample("chicken"))
    yield "feasible payoffs without a game", (out, err.count("\n"), "--payoffs needs the game" in err, status), (b"", 1, True, 2)


def signals(count):
    """A report and its game: after a draw that both see each has two actions, and nothing is paid at all."""
    draws = " ".join(f'"{k}" 1/{count}' for k in range(count))
    leaves = 't "" 0\n' * 2
    nodes = "".join(f'p "" 1 {k} {{ "a" "b" }} 0\np "" 2 {k} {{ "a" "b" }} 0\n{leaves}p "" 2 {k} 0\n{leaves}' for k in range(count))
    report = written({"efce": [(0, 0)]}).replace("one 1", "one" + " 1" * count).replace("two 1", "two" + " 1" * count)
    return f'{report}EFG 2 R "Signals" {{ "A" "B" }} c "" 1 {{ {draws} }} 0\n{nodes}'


# PDF


def pdfs():
    chicken = sample("chicken")
    with tempfile.TemporaryDirectory() as place:
        out, err, status = plot("--format", "pdf", text=chicken, path=place)
        yield "no program for PDF", (out, err.count("\n"), "install rsvg-convert" in err, status), (b"", 1, True, 69)
        program = Path(place) / "rsvg-convert"
        program.write_text('#!/bin/sh\nread line\necho "%PDF of $line $*"\n')
        program.chmod(0o755)
        out, err, status = plot("--format", "pdf", text=chicken, path=place)
        yield "the program for PDF gets the picture", (out[:14], out[-8:], err, status), (b"%PDF of <svg x", b"> -f pdf\n"[-8:], "", 0)
        program.write_text("#!/bin/sh\necho 'no fonts' >&2\nexit 1\n")
        out, err, status = plot("--format", "pdf", text=chicken, path=place)
        yield "the program for PDF fails", (out, err, status), (b"", "corr-plot: rsvg-convert made no PDF: no fonts\n", 69)
    if shutil.which("rsvg-convert"):
        out, err, status = plot("--format", "pdf", text=chicken)
        yield "a PDF", (out[:5], err, status), (b"%PDF-", "", 0)
    else:
        print("contrib: this machine has no rsvg-convert (Debian's package librsvg2-bin), so PDF was tried with a stand-in alone")


PARTS = (samples, looks, drawn, labels, sizes, legends, distances, payoffs, pdfs)
