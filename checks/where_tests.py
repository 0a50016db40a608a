"""Tries corr-where and corr-lint: places, what was to come there, slips, warnings. Parts of checks/contrib, which runs them.

Where the words of a place are tried, the files are damaged at tokens whose part in the file is known from the line's form.
"""
import importlib.machinery
import importlib.util
import re
import subprocess
import sys
import tempfile
from pathlib import Path

ROOT = Path(__file__).resolve().parent.parent
TOOLS = ROOT / "contrib"
SAMPLES = ROOT / "checks" / "samples"
EXAMPLES = sorted((ROOT / "examples").glob("*.efg"))
sys.path.insert(0, str(TOOLS))

from corr_places import stop  # noqa: E402
from corr_refusals import syntax_place  # noqa: E402
from corr_report import Bad  # noqa: E402

COIN = (SAMPLES / "coin.efg").read_text()
REPORT = (SAMPLES / "chicken.report").read_text()
CHICKEN = (SAMPLES / "chicken.efg").read_text()
FORGETFUL = (ROOT / "examples" / "forgetful.efg").read_text()


def run(tool, *words, text=""):
    """What a tool writes to both its outputs, and its status."""
    ended = subprocess.run([str(TOOLS / tool), *words], input=text.encode(), capture_output=True, check=False)
    return ended.stdout.decode(), ended.stderr.decode(), ended.returncode


def on_file(tool, file, text=""):
    """What a tool answers for a file of this content, its path written as FILE."""
    with tempfile.NamedTemporaryFile(suffix=".efg") as kept:
        kept.write(file if isinstance(file, bytes) else file.encode())
        kept.flush()
        out, err, status = run(tool, kept.name, text=text)
        return out.replace(kept.name, "FILE"), err.replace(kept.name, "FILE"), status


def loaded(name):
    """A tool as a module."""
    loader = importlib.machinery.SourceFileLoader(name.replace("-", "_"), str(TOOLS / name))
    module = importlib.util.module_from_spec(importlib.util.spec_from_loader(loader.name, loader))
    loader.exec_module(module)
    return module


# Places


LETTERS = COIN.replace('"heads" 1/2', '"Köpfe" 1/2')


def placed(file, refusal, *marked, hint=None):
    """What corr-where says of a refusal: for each place its head and the marked line with the number of signs before the mark."""
    wanted = "".join(f"FILE: {head}\n  {line}\n  {' ' * before}^\n" for head, line, before in marked)
    return on_file("corr-where", file, refusal + "\n"), (wanted + (f"hint: {hint}\n" if hint else ""), "", 0)


def places():
    cut, said = 'EFG 2 R "Cut" { "A" "B', "refused Syntax byte 20"
    head = f"line 1, column 21: {said}: '}}' or a player's name was to come"
    yield "a byte", *placed(cut, said, (head, cut, 20), hint="the text that begins here has no closing quote")
    said = "refused Syntax byte 22"
    yield "the file's end, where the reader doesn't stop", *placed(cut, said, (f"line 1, column 23, the end of the file: {said}", cut, 22))
    said = "refused Syntax byte 19"
    head = f"line 1, column 20, the end of the file: {said}: '}}' or a player's name was to come"
    yield "the file's end", *placed(cut[:19], said, (head, cut[:19], 19))
    two, said = 'EFG 2 R\r\n\t"Cut" x\r\n', "refused Syntax byte 16"
    yield "a line with a tab, ended by CR LF", *placed(two, said, (f"line 2, column 8: {said}: '{{' was to come", ' "Cut" x', 7))
    said = "refused Syntax byte 19"
    yield "after the last line", *placed(two, said, (f"line 3, column 1, the end of the file: {said}", "", 0))
    at = LETTERS.encode().index(b" 1/2")
    line = LETTERS.splitlines()[2]
    before = line.index(" 1/2") + 1
    said = f"refused Syntax byte {at + 1}"
    yield "a line with letters of two bytes", *placed(LETTERS, said, (f"line 3, column {before + 1}: {said}", line, before))
    said = "refused Report byte 12"
    yield "a report", *placed("corr-report 2\n", said, ("line 1, column 13: refused Report byte 12", "corr-report 2", 12))
    long = "EFG 2 R " + " " * 200 + "x" + " " * 200 + '"t"'
    shown = on_file("corr-where", long, "refused Syntax byte 208")[0].splitlines()
    yield "a long line", (len(shown[1]) <= 102, shown[1][shown[2].index("^")], "column 209" in shown[0]), (True, "x", True)


def node_places():
    said = "refused Forgets player 1 set 2 nodes 2 5"
    nodes = (f"line 4, column 1: {said}: node 2", 'p "" 1 2 { "a" } 0', 0), (f"line 7, column 1: {said}: node 5", 'p "" 1 2 0', 0)
    yield "two nodes", *placed(FORGETFUL, said, *nodes)
    said = "refused MissingNode node 7"
    yield "a node that is missing", *placed(FORGETFUL, said, (f"line 8, column 7: {said}: node 7", 't "" 0', 6))
    said, inside = "refused ChanceSum node 0", 'EFG 2 R "" { "A" "B" } c "" 1 { "a" 0.3 } 0 t "" 0'
    yield "a node within a line", *placed(inside, said, (f"line 1, column 24: {said}: node 0", inside, 23))
    said, coin = "refused Triangle sets 1 2 1 2", COIN.splitlines()
    sets = [(1, 1, 3), (1, 2, 13), (2, 1, 4), (2, 2, 14)]
    marked = [(f"line {k + 1}, column 1: {said}: set {number} of player {side}", coin[k], 0) for side, number, k in sets]
    hint = "corr-plans answers a small game with a triangle, from the definition and not proved"
    yield "the sets of a triangle", *placed(COIN, said, *marked, hint=hint)
    three = 'EFG 2 R "Three" { "A" "B" "C" }\nt "" 0\n'
    yield "the players", *placed(three, "refused Players 3", ("line 1, column 17: refused Players 3", three.splitlines()[0], 16))


SLIP = """EFG 2 R "" { "A" "B" }
p "" 1 1 "One" { "a" } 0
%s
t "" 2 "won" { 1 0 }
"""


def name_hints():
    """A set or an outcome whose nodes have two names; near misses are in the other tests, which have no such hint."""
    hint = 'set 1 of player 1 has the names "One" and "Two": is the number right?'
    line, said = 'p "" 1 1 "Two" { "b" } 0', "refused SetDiffers node 1"
    yield "two sets with one number", *placed(SLIP % line, said, (f"line 3, column 1: {said}: node 1", line, 0), hint=hint)
    line, said = 'p "" 1 1 "Two" 0', "refused Forgets player 1 set 1 nodes 0 1"
    nodes = (f"line 2, column 1: {said}: node 0", 'p "" 1 1 "One" { "a" } 0', 0), (f"line 3, column 1: {said}: node 1", line, 0)
    yield "two sets with one number, by recall", *placed(SLIP % line, said, *nodes, hint=hint)
    hint = 'outcome 2 has the names "lost" and "won": is the number right?'
    line, said = 'p "" 1 2 { "b" } 2 "lost" { 0, 1 }', "refused OutcomeDiffers node 2"
    head = f"line 4, column 1: {said}: node 2", 't "" 2 "won" { 1 0 }', 0
    yield "two outcomes with one number", *placed(SLIP % line, said, head, hint=hint)


def triangle_hints():
    lines = (ROOT / "examples" / "public-coin.efg").read_text().splitlines()
    lines[14] = 'p "" 2 1 "Column on tails" { "Left" "Right" } 0'
    said, hint = "refused Triangle sets 2 1 2 1", 'set 1 of player 2 has the names "Column on heads" and "Column on tails"'
    sets = [(1, 2, 13), (1, 1, 3), (2, 2, 17), (2, 1, 4)]
    marked = [(f"line {k + 1}, column 1: {said}: set {number} of player {side}", lines[k], 0) for side, number, k in sets]
    yield "a set's number with two names, by a triangle", *placed("\n".join(lines), said, *marked, hint=f"{hint}: is the number right?")


def both_places():
    """The input of corr check: places in the game that follows a report count from the report's end."""
    game, lines = COIN.splitlines(), REPORT.count("\n")
    said = "refused ChanceSum node 0"
    yield "a node after a report", *placed(REPORT + COIN, said, (f"line {lines + 3}, column 1: {said}: node 0", game[2], 0))
    said, at = "refused Syntax byte 6", len("EFG 2 ")
    head = f"line {lines + 1}, column 7: {said}: 'R' was to come"
    hint = "EFG 2 D is an older form, with decimals: write R in place of D"
    yield "a byte after a report", *placed(REPORT + 'EFG 2 D "x"', said, (head, 'EFG 2 D "x"', at), hint=hint)
    hint = "no game follows the report: corr check reads a report and its game's file after it"
    for blank, name in (("", "no game after a report"), ("\n\n", "white space after a report")):
        said = f"refused Syntax byte {len(blank)}"
        head = f"line {lines + 1 + len(blank)}, column 1, the end of the file: {said}: 'EFG' was to come"
        yield name, *placed(REPORT + blank, said, (head, "", 0), hint=hint)
    said = "refused Syntax byte 0"
    head = "line 1, column 1: refused Syntax byte 0: 'EFG' was to come", "corr-report 1", 0
    yield "both files given to corr solve", *placed(REPORT + COIN, said, head, hint="this is a report: corr solve reads a game")
    head = "line 1, column 1: refused Report byte 0", game[0], 0
    hint = "this is a game: corr check reads the report first, and the game after it"
    yield "the game before the report", *placed(COIN + REPORT, "refused Report byte 0", head, hint=hint)
    ended = REPORT.replace("\n", "\r\n")
    head = "line 1, column 13: refused Report byte 12", "corr-report 1", 12
    hint = "the lines end with CR LF: save the report with LF alone"
    yield "a report with CR LF", *placed(ended, "refused Report byte 12", head, hint=hint)


def marks_and_blanks():
    """Files of which not even the first token is read; and refusals of other files, of which nothing is shown."""
    game, lines = COIN.splitlines(), REPORT.count("\n")
    said, bom = "refused Syntax byte 0", "the file begins with a byte order mark, which isn't shown: save it as UTF-8 without one"
    head = f"line {lines + 1}, column 1: {said}: 'EFG' was to come", " " + game[0], 0
    yield "a byte order mark between report and game", *placed(REPORT + "\ufeff" + COIN, said, head, hint=bom)
    said, head = "refused Report byte 0", ("line 1, column 1: refused Report byte 0", " corr-report 1", 0)
    yield "a byte order mark before the report", *placed("\ufeff" + REPORT, said, head, hint=bom)
    out = on_file("corr-where", REPORT.encode("utf-16"), said)[0]
    yield "a report in UTF-16", out.splitlines()[-1], "hint: the file is UTF-16: save it as UTF-8"
    head = f"line 1, column 1: {said}", "refused Players 3", 0
    yield "a refusal in place of a report", *placed("refused Players 3\n" + COIN, said, head, hint="this is a refusal, not a report")
    elsewhere = [("Report byte 40", COIN), (f"Syntax byte {len(COIN) + 1}", REPORT + COIN), ("ChanceSum node 0", REPORT)]
    for refusal, file in elsewhere:
        out, err, status = on_file("corr-where", file, f"refused {refusal}")
        yield f"no place: {err.strip()}", (out, err.count("\n"), status), ("", 1, 2)


# What was to come

TEXT, WORD, LIST = '"[^"]*"', "[^ {},]+", r"\{[^{}]*\}"
OUTCOME = f"(?P<outcome>{WORD})(?: (?P<outcome_name>{TEXT}))?(?: (?P<payoffs>{LIST}))?"
SET = f"(?P<set>{WORD})(?: (?P<set_name>{TEXT}))?(?: (?P<actions>{LIST}))? {OUTCOME}"
LINES = [
    f"(?P<format>EFG) (?P<version>2) (?P<numbers>R) (?P<title>{TEXT}) (?P<players>{LIST})",
    f"(?P<comment>{TEXT})",
    f"(?P<letter>c) (?P<chance_name>{TEXT}) {SET.replace('<set', '<draw')}",
    f"(?P<letter>p) (?P<choice_name>{TEXT}) (?P<player>{WORD}) {SET}",
    f"(?P<letter>t) (?P<leaf_name>{TEXT}) {OUTCOME}",
]
NODE = "a node (c, p or t)"
# What may come after a token, by the token's part in the file.
AFTER = {
    None: "'EFG'",
    "format": "'2'",
    "version": "'R'",
    "numbers": "the title",
    "title": "'{'",
    "players": "'}' or a player's name",
    "players end": f"a comment or {NODE}",
    "comment": NODE,
    "letter": "the node's name",
    "chance_name": "the draw's number",
    "choice_name": "the player's number",
    "leaf_name": "the outcome's number",
    "player": "the set's number",
    "draw": "the draw's name, '{' or the outcome's number",
    "set": "the set's name, '{' or the outcome's number",
    "draw_name": "'{' or the outcome's number",
    "set_name": "'{' or the outcome's number",
    "actions": "'}' or an action",
    "chance action": "a probability",
    "actions end": "the outcome's number",
    "outcome": f"the outcome's name, '{{' or {NODE}",
    "outcome_name": f"'{{' or {NODE}",
    "payoffs begin": "a payoff",
    "payoffs": "'}', ',' or a payoff",
    "payoffs end": NODE,
}


def list_parts(part, listed, is_chance):
    """The tokens of a list: where each begins and ends, and its part."""
    for token in re.finditer(rf"{TEXT}|[{{}},]|{WORD}", listed):
        name = part
        if token[0] == "}":
            name = f"{part} end"
        elif part == "payoffs" and token[0] in "{,":
            name = "payoffs begin"
        elif is_chance and token[0].startswith('"'):
            name = "chance action"
        yield token.start(), token.end(), name


def line_parts(line):
    match = next(found for found in (re.fullmatch(form, line) for form in LINES) if found)
    for part, token in match.groupdict(default="").items():
        inside = list_parts(part, token, line.startswith("c")) if token.startswith("{") else [(0, len(token), part)]
        yield from ((match.start(part) + first, match.start(part) + last, name) for first, last, name in inside if token)


def parts(text):
    """Each token of an example: where it begins and ends, and its part in the file."""
    begin = 0
    for line in text.splitlines(True):
        yield from ((begin + first, begin + last, part) for first, last, part in line_parts(line.rstrip("\n")))
        begin += len(line)


def stops(text, begin, end, before):
    """Where and how two damaged files stop, and should: one is cut off before a token, one has a word there that can stand nowhere."""
    at, is_file = len(text[:begin].encode()), before in ("players end", "comment", "payoffs end", "outcome", "outcome_name")
    came = [stop(file.encode()) for file in (text[:begin], f"{text[:begin]} @ {text[end:]}")]
    return came, [None if is_file else (at, AFTER[before]), (at + 1, AFTER[before])]


def awaited():
    """The reader stops at the right byte of damaged examples, and says what may come there; it takes a cut that leaves a whole file."""
    tried = set()
    for path in EXAMPLES:
        text = path.read_text()
        tokens = list(parts(text))
        befores = [None, *(part for _, _, part in tokens)]
        found = [stops(text, begin, end, before) for (begin, end, _), before in zip(tokens, befores)]
        tried.update(befores[:-1])
        yield f"what was to come in {path.name}", [pair for pair in found if pair[0] != pair[1]], []
        yield f"{path.name} as it is", (stop(text.encode()), len(tokens) > 8), (None, True)
    yield "each part of a file was tried", tried, set(AFTER)


# Slips

HEAD = 'EFG 2 R "" { "A" "B" } '
DRAW = HEAD + 'c "" 1 { "a" '
PAYS = HEAD + 't "" 1 { '
COMMA = "this list takes no commas"
PERCENT = "percentages aren't read: write a fraction, such as 1/2, or a decimal, such as 0.5"
FRACTION = "a fraction is two whole numbers, such as -1/2"
SPACED = "a fraction is written without white space, such as 1/2"
MINUS = "this minus sign isn't the one of the keyboard: write -"
CURRENCY = "a currency isn't read: write the number alone"
SEMICOLON = "a semicolon isn't read: the entries of a list are set apart by white space"
COMMENT = "the only comment of a file is the text after the players' names"
BRACES = "lists stand in braces, { and }, not in parentheses or brackets"
QUOTES = 'texts stand between straight double quotes, "'
NAMES = "names and titles stand between double quotes"
INNER = "the text before it ends here: its own closing quote is missing, or a quote in it needs a backslash"
WHOLE = "players, sets, draws and outcomes have whole numbers without a sign"
BLANK = "U+00A0 looks like a space here and isn't read as one: write a space"
LACKS = "the node before it, on line 2, lacks the number of its outcome: write 0 where nothing is paid"
# The bytes before the place, those from there on, and the hint, or None for a near miss.
SLIPS = [
    ("", "efg 2 R", "write EFG in capitals"),
    ("EFG ", '1 R "x"', "this is version 1 of the format: only version 2, EFG 2 R, is read"),
    ("EFG 2 ", 'D "x"', "EFG 2 D is an older form, with decimals: write R in place of D"),
    ("EFG 2 ", 'r "x"', "write R in capitals"),
    ("EFG ", 'R "x"', None),
    ("EFG 2 ", 'Q "x"', None),
    ("EFG 2 R ", 'Chicken { "A" "B" }', NAMES),
    ("EFG 2 R ", "“Chicken” { }", QUOTES),
    ("EFG 2 R ", '2 { "A" "B" }', None),
    ('EFG 2 R "" { "A"', ', "B" }', COMMA),
    ('EFG 2 R "" { ', "A B }", NAMES),
    (DRAW + "0", ',5 "b" 0,5 } 0', "0,5 has a decimal comma: write 0.5"),
    (DRAW + "1/2", ', "b" 1/2 } 0', COMMA),
    (DRAW + "1", ', "b" 0 } 0', COMMA),
    (DRAW, '50% "b" 50% } 0', PERCENT),
    (DRAW + "50 ", '% "b" 50 % } 0', PERCENT),
    (DRAW, '% "b" 1 } 0', None),
    (DRAW, '1e-1 "b" 9e-1 } 0', "exponents aren't read: write the number with all its digits"),
    (DRAW + "1 ", '/ 2 "b" 1 / 2 } 0', SPACED),
    (DRAW, '1/ 2 "b" 1/ 2 } 0', SPACED),
    (DRAW, '.5/1 "b" 1/2 } 0', FRACTION),
    (DRAW, '1/0 "b" 1 } 0', "a denominator is above 0"),
    (DRAW, '"b" } 0', None),
    (DRAW, "x } 0", None),
    (PAYS, "1e3 2 }", "exponents aren't read: write the number with all its digits"),
    (PAYS, "e3 2 }", None),
    (PAYS, "−1 2 }", MINUS),
    (PAYS + "1, ", "–1 }", MINUS),
    (PAYS, "−x 2 }", None),
    (PAYS, "- 1 2 }", "the sign stands right before its number: take out the white space after -"),
    (PAYS, "-x 2 }", None),
    (PAYS, "1/-2 2 }", FRACTION),
    (PAYS, "$2 3 }", CURRENCY),
    (PAYS + "2, ", "-3€ }", CURRENCY),
    (PAYS + "2 ", "£ 3 }", CURRENCY),
    (PAYS, "US$ 3 }", None),
    (PAYS, "2; 2 }", SEMICOLON),
    (PAYS + "2 ", "; 2 }", SEMICOLON),
    (PAYS, "(2, 2) }", BRACES),
    (PAYS + "2, ", "2) ", BRACES),
    (HEAD + 't "" 1 ', "(2, 2)", BRACES),
    (HEAD + 't "" 1 ', "[2, 2]", BRACES),
    (PAYS + "1,", "\u00a02 }", BLANK),
    (PAYS + "1 ,", ", 2 }", None),
    (PAYS + "1, 2 ", "", None),
    (PAYS + "1,2 } ", "x", None),
    (HEAD + 't "0,5 1e3 50% −1 $2 “x” // (;)" 0 ', "x", None),
    (HEAD + 't "" 0 ', "// the end", COMMENT),
    (HEAD + 't "" 0 ', "# the end", COMMENT),
    (HEAD + 't "" 0 ', "end", None),
    (HEAD, 'T "" 0', "write t: nodes begin with small letters"),
    (HEAD, 'T"" 0', "write t: nodes begin with small letters"),
    (HEAD, 'TT "" 0', None),
    (HEAD + 't "" ', "-1 { 2, 2 }", WHOLE),
    (HEAD + 't "" ', "1.0 { 2, 2 }", WHOLE),
    (HEAD + 't "" ', "{ 2, 2 }", None),
    (HEAD + 'p "" 1 1 ', "“Ann” { } 0", QUOTES),
    (HEAD + 'p "" 1 ', "'1' { } 0", None),
    (HEAD + 'p "" 1 1 { ', "'a' } 0", QUOTES),
    (HEAD + 'p "" 1 1 { "a" ', "; 'b' } 0", SEMICOLON),
    (HEAD + 'p "" 1 1 { "a" ', "0", None),
    (HEAD + '\np "" 1 1 { "a" "b" }\n', 't "" 0', LACKS),
    (HEAD + '\nt ""\n', 't "" 0', LACKS),
    (HEAD + '\nt "" 1 { 1, 2 }\nt ', "0", None),
    (HEAD + '\np "" 1 1 { "a" "b"\n', 't "" 0', "the list before it, on line 2, isn't closed"),
    (HEAD + 'p "" 1 1 { "go { "', 'B" } 0', INNER),
    ('EFG 2 R "The "', 'public" coin" { "A" "B" }', INNER),
    (HEAD + 'p "" 1 1 { "go" ', 'B" } 0', NAMES),
    (HEAD + '\np "" 1 1 { "a" "b } 0\nt "', 'x" 0 t "" 0', "the text before it begins on line 2: a closing quote may be missing there"),
    (HEAD + 't "C:\\games\\" 0 t "', '" 0', "the text that begins here has no closing quote"),
    (HEAD + 't "C:\\games\\" 0 t "', 'x" 0 t "" 0', "the text before it has a quote after a backslash, which doesn't end a text"),
    (HEAD + 't ', '"end\\" 0', "the text that begins here has no closing quote: a quote after a backslash doesn't end a text"),
    (HEAD + 't "end” 0 t "', 'x" 0', "the text before it has a typographic quote, which doesn't end a text"),
    (HEAD + 't "“x”" ', "x 0", "the text before it has a typographic quote, which doesn't end a text"),
]
STRATEGIC = "this is a strategic form (.nfg): write it as a tree, in which player 2 moves after player 1 without seeing the move"
WORKSPACE = "this is a workspace of Gambit: open it there, and export the game as an .efg file"
FILES = [
    (b"", "the file is empty"),
    (b" \n\t\r\n", "the file holds white space alone"),
    (b"\xef\xbb\xbf" + CHICKEN.encode(), "the file begins with a byte order mark, which isn't shown: save it as UTF-8 without one"),
    (CHICKEN.encode("utf-16"), "the file is UTF-16: save it as UTF-8"),
    (CHICKEN.encode("utf-16-le"), "the file is UTF-16: save it as UTF-8"),
    (CHICKEN.encode("utf-16-be"), "the file is UTF-16: save it as UTF-8"),
    (b'NFG 1 R "x" { "A" "B" }', STRATEGIC),
    (b'NFGX 1 R "x"', None),
    (b'<?xml version="1.0"?>\n<gambit:document version="0.1">', WORKSPACE),
    (b'<?xml version="1.0"?>\n<svg xmlns="http://www.w3.org/2000/svg">', "this is a picture (SVG), not a game file"),
    (b"<!DOCTYPE html>\n<HTML lang='en'>", "this is a web page, not a game file"),
    (b'<?xml version="1.0"?>\n<game/>', "this is an XML file, not a game file"),
    (b"<game>", None),
    (b"\x7fELF\x02\x01\x01\0\0\0", "this isn't a text file"),
    (b'"Chicken" EFG 2 R', None),
]


def slips():
    for before, after, hint in SLIPS:
        at = len(before.encode())
        place = syntax_place("refused", "FILE", (before + after).encode(), 0, at)
        yield f"a slip at {after!r} after {before!r}", (place.at, place.hint, place.said.endswith(" was to come")), (at, hint, True)


def whole_files():
    for data, hint in FILES:
        came = on_file("corr-where", data, f"refused Syntax byte {0 if data.strip() else len(data)}")
        yield f"a file that begins with {data[:12]!r}", hints(came), ([f"hint: {hint}"] if hint else [], True, 0)


def hints(came):
    """The lines with hints, whether what was to come is said, and the status."""
    out, _, status = came
    return [line for line in out.splitlines() if line.startswith("hint: ")], " was to come\n" in out, status


# Payoffs and trees

TREE = """EFG 2 R "" { "A" "B" }
p "" 1 1 { "a" "b" } 0
  p "" 2 1 { "c" "d" } 0
    t "" 0
    t "" 0
  t "" 0
"""
CUTS = [
    ("3,5 3,5", "3,5 is two numbers: write 3.5"),
    ("3,5, -3,5", "3,5 is two numbers: write 3.5"),
    ("3 3,5", "3,5 is two numbers: write 3.5"),
    ("1,000 2,000", "1,000 is more than one number: write 1000, or a point for a decimal comma"),
    ("1,000,000, 0", "1,000,000 is more than one number: write 1000000, or a point for a decimal comma"),
    ("1 000 2 000", "1 000 is more than one number: write 1000"),
    ("1 000 000, -2 000", "1 000 000 is more than one number: write 1000000"),
    ("1, 2, 3", None),
    ("1 2 3", None),
    ("3,5", None),
    ("1,2,3", None),
    ("1 200 3", None),
    ("1", None),
]
ELSEWHERE = "line 5 comes after action 2 of line {} in the tree, but not by its indentation: look there"
# What is replaced in the tree, the refusal, the hint, and whether the tree is indented.
GROWN = [
    ('    t "" 0\n', "", "MissingNode node 4", ELSEWHERE.format(3), True),
    ('    t "" 0\n', "", "MissingNode node 4", "no node follows action 2 of line 2", False),
    ('  t "" 0\n', "", "MissingNode node 4", "no node follows action 2 of line 2", True),
    ('"c" "d"', '"c"', "ExtraNode node 4", ELSEWHERE.format(2), True),
    ('"c" "d"', '"c"', "ExtraNode node 4", None, False),
    ('  t "" 0\n', '  t "" 0\n  t "" 0\n', "ExtraNode node 5", None, True),
]


def payoff_hints():
    for pays, hint in CUTS:
        came = on_file("corr-where", f'{HEAD}t "{{" 1 "}}" {{ {pays} }}', "refused PayoffCount node 0")
        yield f"a list of payoffs {pays}", hints(came), ([f"hint: {hint}"] if hint else [], False, 0)


def tree_hints():
    for old, new, refusal, hint, is_indented in GROWN:
        file = new.join(TREE.rsplit(old, 1) if old == '  t "" 0\n' else TREE.split(old, 1))
        file = file if is_indented else re.sub("^ +", "", file, flags=re.M)
        came = on_file("corr-where", file, f"refused {refusal}")
        yield f"{refusal}, {'with' if is_indented else 'without'} indentation", hints(came), ([f"hint: {hint}"] if hint else [], False, 0)


AT_BYTES = places, both_places, marks_and_blanks, awaited, slips, whole_files
AT_NODES = node_places, name_hints, triangle_hints, payoff_hints, tree_hints
PARTS = AT_BYTES + AT_NODES
