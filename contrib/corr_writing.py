"""Polygons as text: in the form of corr-plans, or as a report for `corr check`. docs/FORMATS.md has both."""
from fractions import Fraction

from corr_report import DIGITS, NOT_PROVED, Bad

WIDEST, WIDEST_PAYOFF = 2**62, 2**126  # above a report's numbers, and above the parts of its payoffs


def plans_text(play, polygons):
    lines = ["corr-plans 1", NOT_PROVED, _scale_line(play)]
    for polygon in polygons:
        lines += [*_head_lines(play, polygon), *_sides_lines(play, polygon)]
    return _checked("\n".join(lines + ["end"]) + "\n")


def _checked(text):
    """The text, whose numbers have to be such as can be read again."""
    longest = max(map(len, text.replace("/", " ").split()))
    if longest > DIGITS:
        raise Bad(f"a number of the answer has {longest} digits: the form has {DIGITS} at most")
    return text


def _scale_line(play):
    return f"scale {play.tree.scales[0]} {play.tree.scales[1]}"


def _head_lines(play, polygon):
    """A notion's corners, up to the number of sides."""
    yield f"notion {polygon.notion} found"
    yield f"corners {len(polygon.corners)}"
    for k, corner in enumerate(polygon.corners):
        point = " ".join(str(Fraction(part, scale)) for part, scale in zip(corner.point, play.tree.scales))
        yield f"corner {k} {point} total {corner.total} pairs {len(corner.weights)}"
        for pair, weight in corner.weights.items():
            yield _pair_text(play, pair, weight)
    yield f"sides {len(polygon.sides)}"


def _pair_text(play, pair, weight):
    first, second = play.split(pair)
    return f"weight {weight}\none{_plan_text(play.plans[1][first])}\ntwo{_plan_text(play.plans[2][second])}"


def _plan_text(plan):
    return "".join(f" {action or '-'}" for action in plan)


def _sides_lines(play, polygon):
    for direction, corner in polygon.sides:
        bound = polygon.bounds[direction]
        yield f"side {direction[0]} {direction[1]} corner {corner} den {bound.denominator} deviations {len(bound.weights)}"
        yield from _deviation_lines(play, bound)


def _deviation_lines(play, bound):
    for deviation, weight in bound.weights.items():
        yield f"weight {weight}"
        yield f"player {deviation.trigger.player} {_trigger_text(play, deviation.trigger)}"
        yield f"then{_plan_text(deviation.plan)}"


def _trigger_text(play, trigger):
    if trigger.place is None:
        return "start"
    number = play.tree.sets[trigger.player][trigger.place].number
    return f"set {number} action {trigger.action}" if trigger.action else f"set {number}"


def report_text(play, polygons, sides):
    """The report; `sides` has for each polygon those of `corr_program`."""
    lines = ["corr-report 1", _scale_line(play)]
    for polygon, listed in zip(polygons, sides):
        block = [*_head_lines(play, polygon), *map(_side_text, listed)]
        check_width(polygon.notion, block)
        lines += block
    return "\n".join(lines + ["end"]) + "\n"


def _side_text(side):
    head = f"side {side.direction[0]} {side.direction[1]} corner {side.corner} den {side.denominator}"
    return "\n".join([head, " ".join(map(str, ["first", *side.first])), " ".join(map(str, ["second", *side.second]))])


def check_width(notion, lines):
    """Refuses a block with a number that a report doesn't have."""
    if any(abs(int(part)) >= limit for line in lines for word, limit in _limited(line.split()) for part in word.split("/")):
        raise Bad(f"{notion}: a number is too wide for a report, with 2^62 or more, or 2^126 in a payoff; leave out --report")


def _limited(words):
    """The numbers of some lines' words, each with the power of 2 that it stays below; a corner's payoffs may be wider."""
    payoffs = words[2:4] if words[0] == "corner" else []
    others = words[4:] if payoffs else words
    return [(word, WIDEST_PAYOFF) for word in payoffs] + [(word, WIDEST) for word in others if word.lstrip("-").isdigit()]
