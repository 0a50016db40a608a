"""The usual slips in the file of a game or a report, each with what to do about it, in a line.

A slip is named only where its bytes stand at the place of the refusal; elsewhere there is no hint.
"""
import re
from collections import namedtuple

from corr_outline import Outline
from corr_places import line_and_column
from corr_report import TOKEN, WHITE, Bad, read_game

MARK = b"\xef\xbb\xbf"
BLANKS = "\u00a0\u1680\u2000-\u200b\u2028\u2029\u202f\u205f\u2060\u3000\ufeff"
MINUS = "\u2212\u2010-\u2015\ufe63\uff0d"
QUOTES = "\u2018-\u201f\u2039\u203a\u00ab\u00bb\u00b4'`"
CURLY = "\u201c-\u201f"
CURRENCIES = "$\u00a3\u00a5\u20ac"
TRIANGLE_HINT = "corr-plans answers a small game with a triangle, from the definition and not proved"
NUMBER = r"[+-]?(?:[0-9]+\.?[0-9]*|\.[0-9]+)"

# The place of a refusal: what was to come there, the word that stands there, or "", and the token before it.
Spot = namedtuple("Spot", "data at awaited word before")


def spot(data, at, awaited):
    found = TOKEN.match(data, at)
    word = found.group().decode("utf-8", "replace") if found and found.lastgroup == "word" else ""
    before = None
    for token in TOKEN.finditer(data, 0, at):
        before = token
    return Spot(data, at, awaited, word, before)


def syntax_hint(data, at, awaited):
    """The slip at a place where a game file stops being one, or None."""
    here = spot(data, at, awaited)
    faults = _head_hint, _comma_hint, _blank_hint, _node_hint, _number_hint, _word_hint, _text_hint, _name_hint
    return next(filter(None, (fault(here) for fault in faults)), None)


# The head


def file_hint(data):
    """What a file is that isn't even the beginning of a game, or None."""
    text = data[len(MARK) :] if data.startswith(MARK) else data
    if not WHITE.sub(b"", text):
        return "the file holds white space alone" if text else "the file is empty"
    if re.match(rb"\xff\xfe(?!\0\0)|\xfe\xff|(?:[\t-~]\0){3}|(?:\0[\t-~]){3}", data):
        return "the file is UTF-16: save it as UTF-8"
    if data.startswith(b"corr-report "):
        return "this is a report: corr solve reads a game"
    if re.match(rb"\s*<", text):
        return _markup_hint(text[:4096].lower())
    if re.match(rb"\s*NFG\b", text):
        return "this is a strategic form (.nfg): write it as a tree, in which player 2 moves after player 1 without seeing the move"
    if data.startswith(MARK):
        return "the file begins with a byte order mark, which isn't shown: save it as UTF-8 without one"
    if re.search(rb"[\0-\x08\x0e-\x1f]", text[:1024]):
        return "this isn't a text file"
    return None


def _markup_hint(text):
    if b"<gambit" in text:
        return "this is a workspace of Gambit: open it there, and export the game as an .efg file"
    for tag, what in ((b"<svg", "a picture (SVG)"), (b"<html", "a web page"), (b"<?xml", "an XML file")):
        if tag in text:
            return f"this is {what}, not a game file"
    return None


def _head_hint(here):
    came = here.data[: here.at].split()
    if not came:
        small = here.word.upper() == "EFG" and "write EFG in capitals"
        return file_hint(here.data) or small or None
    if came == [b"EFG"] and re.fullmatch("[0-9]+", here.word):
        return f"this is version {here.word} of the format: only version 2, EFG 2 R, is read"
    if came == [b"EFG", b"2"] and here.word == "D":
        return "EFG 2 D is an older form, with decimals: write R in place of D"
    if came == [b"EFG", b"2"] and here.word == "r":
        return "write R in capitals"
    return None


# The place itself


def _comma_hint(here):
    if here.data[here.at : here.at + 1] != b"," or here.before is None:
        return None
    after = re.compile(rb"[0-9]+").match(here.data, here.at + 1)
    if here.before.end() == here.at and re.fullmatch(rb"[+-]?[0-9]+", here.before.group()) and after:
        whole, part = here.before.group().decode(), after.group().decode()
        return f"{whole},{part} has a decimal comma: write {whole}.{part}"
    if here.awaited in ("'}' or a player's name", "'}' or an action"):
        return "this list takes no commas"
    return None


def _blank_hint(here):
    blank = re.search(f"[{BLANKS}]", here.word)
    if blank:
        return f"U+{ord(blank.group()):04X} looks like a space here and isn't read as one: write a space"
    return None


def _node_hint(here):
    """A node begins where something else was to come, or its letter is wrong."""
    if here.word in ("C", "P", "T") and "a node" in here.awaited:
        return f"write {here.word.lower()}: nodes begin with small letters"
    if here.word not in ("c", "p", "t") or not re.compile(rb'[cpt]\s*"').match(here.data, here.at) or here.before is None:
        return None
    line = line_and_column(here.data, here.before.start())[0]
    if here.awaited.endswith("the outcome's number"):
        return f"the node before it, on line {line}, lacks the number of its outcome: write 0 where nothing is paid"
    if here.awaited.startswith("'}'"):
        return f"the list before it, on line {line}, isn't closed"
    return None


def _number_hint(here):
    """A number that is written in a way of its own."""
    follows = here.before is not None and re.fullmatch(NUMBER, here.before.group().decode("utf-8", "replace")) is not None
    if re.fullmatch(f"{NUMBER}%", here.word) or follows and here.word == "%":
        return "percentages aren't read: write a fraction, such as 1/2, or a decimal, such as 0.5"
    if re.fullmatch("[0-9]+/", here.word) or follows and re.fullmatch("/[0-9]*", here.word):
        return "a fraction is written without white space, such as 1/2"
    if re.fullmatch("[+-]", here.word) and re.compile(rb".\s+[0-9.]").match(here.data, here.at):
        return f"the sign stands right before its number: take out the white space after {here.word}"
    if re.fullmatch(f"{NUMBER}|[+-]?[0-9]+/[0-9]+", here.word) and here.awaited.endswith("'s number"):
        return "players, sets, draws and outcomes have whole numbers without a sign"
    return None


COINS = re.escape(CURRENCIES)
# What a word looks like, what was to come, and the hint.
WORDS = [
    (f"{NUMBER}[eE][+-]?[0-9]+", "", "exponents aren't read: write the number with all its digits"),
    (r"[+-]?[0-9]+/0+", "", "a denominator is above 0"),
    (r"(?![+-]?[0-9]+/[0-9]+$)[+-]?[0-9.]+/[+-]?[0-9.]+", "", "a fraction is two whole numbers, such as -1/2"),
    (f"[{MINUS}](?:[0-9.].*)?", "", "this minus sign isn't the one of the keyboard: write -"),
    (f"[+-]?[{COINS}](?:{NUMBER})?|{NUMBER}[{COINS}]", "", "a currency isn't read: write the number alone"),
    (f"(?:{NUMBER})?;.*", "", "a semicolon isn't read: the entries of a list are set apart by white space"),
    (r"(?://|#|/\*|--(?![0-9])).*", "", "the only comment of a file is the text after the players' names"),
    (rf"[(\[].*|(?:{NUMBER})?[)\]].*", "'{'|payoff|probability", "lists stand in braces, { and }, not in parentheses or brackets"),
    (f"[{QUOTES}].*", "title|name|action|comment", 'texts stand between straight double quotes, "'),
]


def _word_hint(here):
    fits = (hint for pattern, awaited, hint in WORDS if re.fullmatch(pattern, here.word) and re.search(awaited, here.awaited))
    return next(fits, None)


def _text_hint(here):
    """The text before the place ends elsewhere than was meant, or the text at the place nowhere."""
    if here.data[here.at : here.at + 1] == b'"' and TOKEN.match(here.data, here.at) is None:
        slashed = b'\\"' in here.data[here.at :]
        return "the text that begins here has no closing quote" + (': a quote after a backslash doesn\'t end a text' if slashed else "")
    if here.before is None or here.before.lastgroup != "text" or not here.word:
        return None
    text = here.before.group().decode("utf-8", "replace")
    line = line_and_column(here.data, here.before.start())[0]
    if re.search(f"[{CURLY}]", text):
        return "the text before it has a typographic quote, which doesn't end a text"
    if "\n" in text:
        return f"the text before it begins on line {line}: a closing quote may be missing there"
    if '\\"' in text:
        return "the text before it has a quote after a backslash, which doesn't end a text"
    if here.before.end() == here.at:
        return "the text before it ends here: its own closing quote is missing, or a quote in it needs a backslash"
    return None


def _name_hint(here):
    if here.word[:1].isalpha() and here.awaited in ("the title", "the node's name", "'}' or a player's name", "'}' or an action"):
        return "names and titles stand between double quotes"
    return None


# Reports, payoffs and trees


def report_hint(data, at):
    """The slip at a place where a report stops being one, or None."""
    if at == 0 and re.match(rb"\s*EFG\b", data):
        return "this is a game: corr check reads the report first, and the game after it"
    if at == 0 and data.startswith((b"refused ", b"usage: ")):
        return "this is a refusal, not a report"
    if at == 0:
        return file_hint(data)
    if re.compile(rb"[^ \n]*\r\n").match(data, at):
        return "the lines end with CR LF: save the report with LF alone"
    return None


def payoffs_hint(data, node):
    """Why a node may have more than two payoffs, or None: numbers that commas or spaces cut into pieces."""
    listed = _payoffs(data, node)
    numbers = re.split(r",?\s+", listed)
    cut = next((number for number in numbers if "," in number), None)
    if len(numbers) == 2 and cut is not None:
        if re.fullmatch("[+-]?[0-9]{1,3}(,[0-9]{3})+", cut):
            return f"{cut} is more than one number: write {cut.replace(',', '')}, or a point for a decimal comma"
        if re.fullmatch("[+-]?[0-9]+,[0-9]+", cut):
            return f"{cut} is two numbers: write {cut.replace(',', '.')}"
    thousands = re.fullmatch(r"([+-]?[0-9]{1,3}(?: [0-9]{3})+),? [+-]?[0-9]{1,3}(?: [0-9]{3})+", listed)
    if thousands:
        return f"{thousands[1]} is more than one number: write {thousands[1].replace(' ', '')}"
    return None


def _payoffs(data, node):
    """The list of payoffs between its braces, as it is written."""
    begin = None
    for token in TOKEN.finditer(data, node.outcome_at):
        if token.group() == b"{":
            begin = token.end()
        if token.group() == b"}":
            return data[begin : token.start()].decode("utf-8", "replace").strip()
    return ""


def set_hint(nodes, player, number):
    """Two names of a set, or of a draw where there is no player: one of its nodes may have another set's number. Or None."""
    names = {node.set_name: None for node in nodes if (node.player, node.number) == (player, number) and node.set_name}
    return _names_hint(f"set {number} of player {player}" if player else f"draw {number}", names)


def outcome_hint(nodes, number):
    """The same for an outcome."""
    return _names_hint(f"outcome {number}", {node.outcome_name: None for node in nodes if node.outcome == number and node.outcome_name})


def _names_hint(what, names):
    if len(names) < 2:
        return None
    one, other = list(names)[:2]
    return f'{what} has the names "{one}" and "{other}": is the number right?'


def tree_hint(data):
    """Where to look in a file whose tree isn't closed where the file ends, or None."""
    try:
        nodes = read_game(data).nodes
        outline = Outline(nodes)
    except Bad:
        return None
    out = next((k for k in range(1, len(outline.steps)) if _is_out(data, nodes, outline.steps, k)), None)
    if out is not None:
        line = line_and_column(data, nodes[out].at)[0]
        return f"line {line} comes after {_named(data, nodes, outline.steps[out])} in the tree, but not by its indentation: look there"
    if outline.missing and outline.missing[0] is not None:
        return f"no node follows {_named(data, nodes, outline.missing[0])}"
    return None


def _named(data, nodes, step):
    return f"action {step.action} of line {line_and_column(data, nodes[step.parent].at)[0]}"


def _is_out(data, nodes, steps, k):
    """Whether a node is indented otherwise than the other nodes of its parent before it, where these are indented."""
    parent = steps[k].parent
    own, above = _indentation(data, nodes[k].at), _indentation(data, nodes[parent].at)
    if steps[k].action == 1 or None in (own, above):
        return False
    first = _indentation(data, nodes[parent + 1].at)
    return first is not None and first > above and own != first


def _indentation(data, at):
    """How far a node stands from the start of its line, None where something else comes before it."""
    before = data[data.rfind(b"\n", 0, at) + 1 : at]
    return len(before) if not before.strip() else None
