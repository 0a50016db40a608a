"""Tests of corr-page: the file itself, its arithmetic where node is installed, and the page in Chromium where that and its driver are.
Payoffs of distributions are worked out from the games' trees by the definitions."""
import json
import random
import re
import shutil
import subprocess
import sys
import tempfile
from fractions import Fraction
from html.parser import HTMLParser
from math import gcd
from pathlib import Path

from browser import Browser, programs
from definitions import Game
from efg import read
from picture_tests import MINUS, ROOT, game_of, sample
from reports import Report

TOOL = ROOT / "contrib" / "corr-page"
ALONE = {"meta", "link", "input", "line", "rect", "circle", "polygon", "polyline", "path"}  # elements without a content
PAYOFFS = {"DD": (0, 0), "DC": (7, 2), "CD": (2, 7), "CC": (6, 6)}  # of Chicken
PATTERN = re.compile(r"(?:https?:)?//[a-z0-9]", re.I)


def page(*words, text=""):
    ended = subprocess.run([sys.executable, str(TOOL), *words], input=text.encode(), capture_output=True, check=False)
    return ended.stdout.decode(), ended.stderr.decode(), ended.returncode


def page_of(name):
    return page("--game", game_of(name), text=sample(name))


class Elements(HTMLParser):
    """The elements of a page: each start with its attributes, the texts by the element around them, and what isn't closed in order."""

    def __init__(self, text):
        super().__init__()
        self.open, self.starts, self.texts, self.faults, self.declared = [], [], [], [], []
        self.feed(text)
        self.close()
        self.faults += self.open

    def handle_decl(self, decl):
        self.declared.append(decl)

    def handle_starttag(self, tag, attrs):
        self.starts.append((tag, dict(attrs)))
        if tag not in ALONE:
            self.open.append(tag)

    def handle_startendtag(self, tag, attrs):
        self.starts.append((tag, dict(attrs)))

    def handle_endtag(self, tag):
        if not self.open or self.open.pop() != tag:
            self.faults.append(tag)

    def handle_data(self, data):
        self.texts.append((self.open[-1] if self.open else "", data))

    def content(self, tag):
        return [data for kind, data in self.texts if kind == tag]


def data_in(text):
    return json.loads(re.search(r'<script id="data" type="application/json">(.*?)</script>', text, re.S)[1])


# The file


def files():
    for name, title in (("chicken", "Chicken"), ("coin", "A public coin"), ("steps", "Two steps")):
        text, err, status = page_of(name)
        found = Elements(text)
        yield f"{name}: a page", (err, status, found.declared, found.faults), ("", 0, ["DOCTYPE html"], [])
        heads = found.content("title"), found.content("h1"), dict(found.starts)["html"]
        yield f"{name}: title and language", heads, ([title], [title], {"lang": "en"})
        yield f"{name}: nothing from elsewhere", PATTERN.findall(text.replace("http://www.w3.org/2000/svg", "")), []
        named = [more for _, more in found.starts if "src" in more or more.get("href", "data:,") != "data:,"]
        yield f"{name}: no attribute names another file", named, []
        yield f"{name}: no script writes HTML", re.findall("innerHTML|outerHTML|insertAdjacentHTML|document.write", text), []
        yield f"{name}: the corners of the data", corners_in(data_in(text)), corners_of(sample(name))
        yield f"{name}: the corners without a script", rows_in(text), rows_of(sample(name))
    yield "both in one file", page(text=sample("coin") + Path(game_of("coin")).read_text()), page_of("coin")
    one = page("--notion", "nfcce", "--game", game_of("coin"), text=sample("coin"))[0]
    yield "one notion alone", list(data_in(one)["notions"]), ["nfcce"]


def corners_in(data):
    """Each notion's corners in the page's data, with plans as the definitions have them."""
    return {notion: [corner_in(corner) for corner in corners] for notion, corners in data["notions"].items()}


def corner_in(corner):
    pairs = [(int(weight), *map(counted_from_0, plans)) for weight, *plans in corner["pairs"]]
    return tuple(map(Fraction, corner["point"])), int(corner["total"]), pairs


def counted_from_0(plan):
    return tuple(action and action - 1 for action in plan)


def corners_of(report):
    return {notion: block.corners for notion, block in Report(report).blocks.items() if not isinstance(block, str)}


def rows_in(text):
    """Each notion's corners in the tables of the page, without their decimals."""
    tables = re.findall(r'<table class="corners" id="corners-(\w+)">(.*?)</table>', text, re.S)
    return {notion: [payoffs_in(row) for row in re.findall("<tr><th.*?</tr>", table)] for notion, table in tables}


def payoffs_in(row):
    return tuple(Fraction(cell.replace(MINUS, "-")) for cell in re.findall(rf"<td>([{MINUS}\d/]+)", row))


def rows_of(report):
    return {notion: [point for point, _, _ in corners] for notion, corners in corners_of(report).items()}


# Names

NAMES = {"Row": 'R\\"<b>&amp;', "Column": "\u00c4\u03a9\u2028</td>", "Chicken": "</script></title>", '"C"': '"</script><i>\u00fc"'}


def renamed():
    """Chicken with names that could end an element or an attribute."""
    text = Path(game_of("chicken")).read_text()
    for old, new in NAMES.items():
        text = text.replace(old, new)
    return text


def names():
    text, err, status = page(text=sample("chicken") + renamed())
    found = Elements(text)
    yield "names with signs of HTML: a page", (err, status, found.faults), ("", 0, [])
    yield "names with signs of HTML: as many elements", len(found.starts), len(Elements(page_of("chicken")[0]).starts)
    yield "the title is escaped", "".join(found.content("title")), "</script></title>"
    data = data_in(text)
    yield "players in the data", data["players"], ['R"<b>&amp;', "\u00c4\u03a9 </td>"]
    yield "actions in the data", data["sets"][0], [{"name": "", "actions": ["D", "</script><i>\u00fc"]}]
    steps = data_in(page_of("steps")[0])["sets"]
    yield "sets and actions without names", steps[0][1], {"name": "later", "actions": ['a "b"', "action 2"]}
    yield "a set without a name", steps[1], [{"name": "", "actions": ["l", "r"]}]


# Colours


def colours():
    """The contrast of each colour of a text with white and with the darkest ground below a text, by the definition of WCAG 2."""
    style = (ROOT / "contrib" / "corr_page.css").read_text()
    for name in ("ink", "quiet", "blue", "warm"):
        colour = re.search(rf"--{name}: (#[0-9a-f]{{6}});", style)[1]
        yield f"the contrast of {name}", contrast(colour, "#ffffff") >= 4.5, True
    yield "the contrast of a button", contrast(re.search("--blue: (#[0-9a-f]{6})", style)[1], "#dde8f2") >= 4.5, True


def contrast(dark, light):
    return (luminance(light) + 0.05) / (luminance(dark) + 0.05)


def luminance(colour):
    parts = [int(colour[k : k + 2], 16) / 255 for k in (1, 3, 5)]
    red, green, blue = (part / 12.92 if part <= 0.03928 else ((part + 0.055) / 1.055) ** 2.4 for part in parts)
    return 0.2126 * red + 0.7152 * green + 0.0722 * blue


# Refusals


def refusals():
    chicken = sample("chicken")
    none = "corr-report 1\nscale 2 2\nnotion efce empty\nmultipliers 1\nend\n"
    game = ["--game", game_of("chicken")]
    yield "no game", page(text=chicken), ("", "corr-page: no game: name its file by --game, or let it follow the report\n", 2)
    came = page("--game", game_of("coin"), text=chicken)
    yield "another game", (came[0], "the report isn't of the game 'A public coin'" in came[1], came[2]), ("", True, 2)
    yield "no polygon", page("--game", game_of("steps"), text=none), ("", "corr-page: the report has no polygon to draw\n", 2)
    came = page("--notion", "efce", "--game", game_of("steps"), text=sample("steps"))
    yield "a notion without a polygon", came, ("", "corr-page: the report has no polygon to draw\n", 2)
    said = "corr-page: unrecognized arguments: --picture; corr-page --help says more\n"
    yield "unknown words", page("--picture", *game, text=chicken), ("", said, 64)
    yield "no such file", page(*game, "no such file")[1:], ("corr-page: no such file: No such file or directory\n", 72)
    said = "corr-page: the corners of efce don't go counter-clockwise round a polygon, first seen after corner 1\n"
    yield "corners in another order", page(*game, text=turned(chicken)), ("", said, 2)


def turned(report):
    """The report with two corners of its first notion in each other's place."""
    start = [report.index(f"corner {k} ") for k in range(4)]
    two, three = report[start[2] : start[3]], report[start[3] : report.index("sides ")]
    swapped = three.replace("corner 3", "corner 2") + two.replace("corner 2", "corner 3")
    return report[: start[2]] + swapped + report[report.index("sides ") :]


# Arithmetic, in node

DRIVER = """
const given = JSON.parse(require("fs").readFileSync(0, "utf8"));
const plain = (value) => `${value.numerator}/${value.denominator}`;
function answer({ corners, point }) {
  const own = corners.map((corner) => corner.point.map(Exact.parsed));
  const at = point.map(Exact.parsed);
  const mix = Exact.mixture(own, at);
  if (!mix) return { side: (({ first, second, bound }) => [`${first}`, `${second}`, plain(bound)])(Exact.bounding(own, at)) };
  const lines = Exact.distribution(corners, mix).map(({ weight, plans }) => [plain(weight), ...plans]);
  return { corners: mix.length, lines };
}
const axis = { least: Exact.parsed("18/5"), step: Exact.parsed("1/10"), lowest: 10n, highest: 80n };
console.log(JSON.stringify({
  answers: given.points.map((each) => answer({ ...each, corners: given.corners[each.of] })),
  decimals: given.decimals.map((text) => Exact.decimal(Exact.parsed(text))),
  grid: given.grid.map((offset) => plain(Exact.gridPayoff(axis, offset))),
  steps: given.steps.map(([payoff, steps]) => plain(Exact.stepped(axis, Exact.parsed(payoff), steps))),
}));
"""
DECIMALS = {"21/4": "5.25", "1/3": "\u22480.3333", "-1/7": f"\u2248{MINUS}0.1429", "0": "0", "-5/4": f"{MINUS}1.25", "100": "100"}
DECIMALS.update({"1/3000": "\u22480.0003333", "200000/3": "\u224866667", "1/64": "0.015625"})
# From 18/5 on, rounded to tenths between 1 and 8.
GRID = {0.43: "4/1", 0.04: "18/5", -0.36: "16/5", 100: "8/1", -100: "1/1"}
STEPS = [("21/4", 1, "53/10"), ("21/4", -1, "26/5"), ("5", 10, "6/1"), ("5", -1, "49/10"), ("8", 1, "8/1"), ("1", -10, "1/1")]
BOXES = {"chicken": ((1, 8), (1, 8)), "coin": ((1, Fraction(7, 2)), (Fraction(-1, 5), Fraction(7, 10)))}


def arithmetic():
    if not shutil.which("node"):
        print("contrib: this machine has no node (Debian's package nodejs), so corr-page's arithmetic was tried in a browser at most")
        return
    cases = list(drawn_cases())
    of = {key: k for k, key in enumerate(dict.fromkeys(case[:2] for case in cases))}
    data = {name: data_in(page_of(name)[0])["notions"] for name in BOXES}
    points = [{"of": of[name, notion], "point": list(map(str, point))} for name, notion, point in cases]
    given = {"corners": [data[name][notion] for name, notion in of], "points": points}
    given.update(decimals=list(DECIMALS), grid=list(GRID), steps=[each[:2] for each in STEPS])
    came = in_node(given)
    yield "decimals", came["decimals"], list(DECIMALS.values())
    yield "the nearest payoffs of a grid", came["grid"], list(GRID.values())
    yield "steps on a grid", came["steps"], [each[2] for each in STEPS]
    games = {name: Game(read(Path(game_of(name)).read_text())[0]) for name in BOXES}
    reached = sum("lines" in answer for answer in came["answers"])
    yield "points of both kinds were tried", reached > 60 and len(cases) - reached > 60, True
    for (name, notion, point), answer in zip(cases, came["answers"]):
        corners = corners_of(sample(name))[notion]
        yield f"{name}: {notion} at {point}", answer_fault(games[name], corners, point, answer), None


def drawn_cases():
    """200 points of a grid for each game, its corners, and the middles of its sides."""
    draw = random.Random(11)
    for name, box in BOXES.items():
        found = list(corners_of(sample(name)).items())
        for k in range(200):
            yield name, found[k % 3][0], tuple(low + (high - low) * Fraction(draw.randrange(51), 50) for low, high in box)
        for notion, corners in found:
            points = [point for point, _, _ in corners]
            ends = zip(points, points[1:] + points[:1])
            yield from ((name, notion, point) for point in points)
            yield from ((name, notion, tuple((a + b) / 2 for a, b in zip(*end))) for end in ends)


def in_node(given):
    text = (ROOT / "contrib" / "corr_exact.js").read_text() + DRIVER
    with tempfile.TemporaryDirectory() as place:
        file = Path(place) / "driver.js"
        file.write_text(text)
        ended = subprocess.run(["node", str(file)], input=json.dumps(given), capture_output=True, text=True, timeout=60, check=True)
    return json.loads(ended.stdout)


def answer_fault(game, corners, point, answer):
    """What is wrong with a distribution or with a side for this point, or None."""
    points = [corner[0] for corner in corners]
    if is_in(points, point) != ("lines" in answer):
        return "whether it is reached"
    if "lines" not in answer:
        return side_fault(points, point, *map(Fraction, answer["side"]))
    lines = [(Fraction(weight), *map(counted_from_0, plans)) for weight, *plans in answer["lines"]]
    if not answer["corners"] <= 3 or len({line[1:] for line in lines}) < len(lines):
        return "more than three corners, or a pair of plans twice"
    if sum(weight for weight, _, _ in lines) != 1 or any(weight <= 0 for weight, _, _ in lines):
        return "the weights"
    paid = tuple(sum(weight * game.pay(k, *plans) for weight, *plans in lines) / game.scale[k] for k in (1, 2))
    return None if paid == point else f"the distribution pays {paid}"


def is_in(points, point):
    """Whether a point is in the polygon, or on the line or the point that it is."""
    ends = list(zip(points, points[1:] + points[:1]))
    inner = all((b[0] - a[0]) * (point[1] - a[1]) >= (b[1] - a[1]) * (point[0] - a[0]) for a, b in ends)
    return inner and all(min(p[k] for p in points) <= point[k] <= max(p[k] for p in points) for k in (0, 1))


def side_fault(points, point, first, second, bound):
    if first.denominator * second.denominator != 1 or gcd(int(first), int(second)) != 1:
        return "the side's numbers"
    if bound != max(first * x + second * y for x, y in points):
        return "the side's bound"
    return None if first * point[0] + second * point[1] > bound else "the side doesn't bound the point"


# The page in a browser


class Shown:
    """A page that is shown: where points lie on it, and what it says."""

    def __init__(self, browser, text, place):
        self.browser = browser
        file = Path(place) / "page.html"
        file.write_text(text, encoding="utf-8")
        browser.open(file.as_uri())

    def middle(self, selector, number=0):
        box = "const box = document.querySelectorAll(arguments[0])[arguments[1]].getBoundingClientRect();"
        return self.browser.script(box + "return [box.x + box.width / 2, box.y + box.height / 2]", selector, number)

    def status(self):
        return self.browser.texts("#status")[0]

    def fields(self):
        return self.browser.script("return [...document.querySelectorAll('#payoffs input')].map((field) => field.value)")

    def distribution(self):
        """The rows that are shown: a weight, and the actions of both."""
        cells = "[...row.querySelectorAll('.weight, .action')].map((cell) => cell.textContent)"
        rows = self.browser.script(f"return [...document.querySelectorAll('#distribution tbody tr')].map((row) => {cells})")
        return [(Fraction(weight), *actions) for weight, *actions in rows]

    def paid(self):
        """The sum of the weights and the payoffs of both, in Chicken."""
        rows = [(weight, PAYOFFS[one + two]) for weight, one, two in self.distribution()]
        return sum(row[0] for row in rows), *(sum(weight * pays[k] for weight, pays in rows) for k in (0, 1))

    def type(self, first, second):
        for number, word in ((1, first), (2, second)):
            self.browser.write(f"#payoffs label:nth-child({number}) input", word + "\ue007")

    def choose(self, notion):
        self.browser.click(f"input[value={notion}]")


def in_browser():
    if not programs():
        print("contrib: this machine lacks chromium or chromedriver (Debian's package chromium-driver): no browser tried corr-page")
        return
    try:
        with tempfile.TemporaryDirectory() as place, Browser() as browser:
            for part in (dragged, keyed, jumped, switched, worded, named, narrow):
                yield from part(browser, place)
                yield f"{part.__name__}: nothing on the console", browser.log(), []
    except (OSError, RuntimeError) as fault:
        yield "the browser answers", repr(fault), None


# The side from (7, 2) to (21/4, 21/4): 13 * 7 + 7 * 2 = 105.
OUTSIDE = "In every EFCE, 13 times Row's expected payoff plus 7 times Column's is at most 105; here it is"


def dragged(browser, place):
    """The marks of the corners (7, 2) and (2, 7) say where payoffs lie."""
    shown = Shown(browser, page_of("chicken")[0], place)
    (x7, y2), (x2, y7) = (shown.middle("figure svg circle[r='4.5']", k) for k in (0, 2))

    def at(first, second):
        return x2 + (first - 2) * (x7 - x2) / 5, y2 + (second - 2) * (y7 - y2) / 5

    browser.drag(shown.middle("#point .disc"), at(4, 4), at(5, 5))
    yield "dragged to (5, 5)", (shown.fields(), shown.status()), (["5", "5"], "An EFCE reaches the point (5, 5).")
    yield "(5, 5) is what the distribution pays", shown.paid(), (1, 5, 5)
    browser.drag(at(4, 4.5), at(4.2, 4.6))
    yield "dragged from elsewhere", (shown.fields(), shown.paid()), (["21/5", "23/5"], (1, Fraction(21, 5), Fraction(23, 5)))
    browser.drag(shown.middle("#point .disc"), at(6, 6))
    yield "dragged out", shown.status(), f"No EFCE reaches the point (6, 6). {OUTSIDE} 120."
    yield "no distribution is shown there", (browser.texts("#distribution"), len(browser.texts("#side"))), ([], 1)
    browser.drag(shown.middle("#point .disc"), at(6, 4), at(3.63, 3.58))
    yield "dragged to a corner nearly", shown.fields(), ["18/5", "18/5"]


def keyed(browser, place):
    shown = Shown(browser, page_of("chicken")[0], place)
    shown.type("6", "6")
    browser.script("document.getElementById('point').focus()")
    moves = (["right"], ["61/10", "6"]), (["shift", "down"], ["61/10", "5"]), (["left"], ["6", "5"]), (["up"], ["6", "51/10"])
    for keys, wanted in moves:
        browser.press(*keys)
        yield f"the keys {' '.join(keys)}", shown.fields(), wanted
    attributes = "return ['role', 'aria-valuetext'].map((name) => document.getElementById('point').getAttribute(name))"
    said = browser.script(attributes)
    yield "what the slider says", said, ["slider", "Row 6, Column 51/10, not reached"]
    yield "the live region", shown.status(), f"No EFCE reaches the point (6, 51/10). {OUTSIDE} 1137/10."
    shown.type("18/5", "3.6")
    yield "a point that is typed", (shown.fields(), shown.paid()), (["18/5", "18/5"], (1, Fraction(18, 5), Fraction(18, 5)))
    shown.type("x", "1/0")
    invalid = "return [...document.querySelectorAll('#payoffs input')].map((field) => field.getAttribute('aria-invalid'))"
    wrong = browser.script(invalid)
    yield "words that are no payoffs", (wrong, shown.status()), (["true", "true"], "An EFCE reaches the point (18/5, 18/5).")


def jumped(browser, place):
    shown = Shown(browser, page_of("chicken")[0], place)
    browser.click("#corners-efce tbody tr:nth-child(2) button")
    wanted = [(Fraction(1, 4), "C", "D"), (Fraction(1, 4), "D", "C"), (Fraction(1, 2), "C", "C")]
    yield "a corner's button", (shown.fields(), sorted(shown.distribution())), (["21/4", "21/4"], sorted(wanted))
    yield "the corner's mixture", browser.texts("#mixture"), ["It is that of corner 1."]


def switched(browser, place):
    """The coin's polygons reach the height 0, 3/8 and 1/2."""
    shown = Shown(browser, page_of("coin")[0], place)
    shown.type("2", "1/2")
    said = "No {0} reaches the point (2, 1/2). In every {0}, Column's expected payoff is at most {1}; here it is 1/2.".format
    yield "EFCE, which is chosen at first", shown.status(), said("EFCE", 0)
    shown.choose("efcce")
    yield "EFCCE", shown.status(), said("EFCCE", "3/8")
    shown.choose("nfcce")
    yield "NFCCE", shown.status(), "An NFCCE reaches the point (2, 1/2)."
    yield "the corners of the notion that is chosen", browser.texts("table.corners caption"), ["Corners of NFCCE"]
    yield "the weights of its distribution", sum(row[0] for row in shown.distribution()), 1


def worded(browser, place):
    """Sides in each form of words. In the game of two steps they are the ends of a line, from (1, 0) to (-1/3, 4/3)."""
    said = "No {} reaches the point ({}). In every {}, {}; here it is {}.".format
    shown = Shown(browser, page_of("chicken")[0], place)
    shown.type("3", "3")
    least = "17 times Row's expected payoff plus 8 times Column's is at least 90"
    yield "numbers below 0", shown.status(), said("EFCE", "3, 3", "EFCE", least, 75)
    shown = Shown(browser, page_of("steps")[0], place)
    states = browser.script("return [...document.querySelectorAll('input[name=notion]')].map((radio) => [radio.disabled, radio.checked])")
    yield "notions without a polygon", states, [[True, False], [True, False], [False, True]]
    for point, words, here in (
        (("2", "-1"), "Ann's expected payoff minus Bob's is at most 1", 3),
        (("-1", "2"), "Bob's expected payoff minus Ann's is at most 5/3", 3),
        (("1/2", "1"), "Ann's expected payoff plus Bob's is at most 1", "3/2"),
    ):
        shown.type(*point)
        shows = ", ".join(point).replace("-", MINUS)
        yield f"an end or a side of a line, {shows}", shown.status(), said("NFCCE", shows, "NFCCE", words, here)
    shown.type("1/3", "2/3")
    yield "amid a line", shown.status(), "An NFCCE reaches the point (1/3, 2/3)."
    yield "the weights amid a line", [row[0] for row in shown.distribution()], [Fraction(1, 2), Fraction(1, 6), Fraction(1, 3)]


def named(browser, place):
    shown = Shown(browser, page(text=sample("chicken") + renamed())[0], place)
    browser.click("#corners-efce tbody tr:nth-child(1) button")
    yield "names as they are shown", browser.texts("#distribution .action"), ["D", "</script><i>\u00fc"]
    yield "the players as they are shown", browser.texts("#distribution thead th"), ["weight", 'R"<b>&amp;', "\u00c4\u03a9 </td>"]
    yield "the distribution of a corner", shown.distribution(), [(1, "D", "</script><i>\u00fc")]


def narrow(browser, place):
    """A page that is 400 pixels wide has nothing beyond them."""
    browser.resize(400, 800)
    Shown(browser, page_of("coin")[0], place)
    yield "a narrow window", browser.script("return [innerWidth, document.documentElement.scrollWidth]"), [400, 400]
    browser.resize(None)


PARTS = (files, names, colours, refusals, arithmetic, in_browser)
