"""Where things lie on a picture of polygons: the scales of both axes, the frame with its round numbers, and how wide texts are."""
from fractions import Fraction
from math import ceil, floor
from unicodedata import east_asian_width

ROOM = 424, 308  # the greatest width and height of the polygons
LEAST = 220  # the least width and height of the frame
AROUND = 36  # from the polygons to the frame, at least
FLATTEST = 110  # polygons flatter than that get a scale for each axis
TICK_SIZE = 14  # how large numbers are, where other sizes are given for that
NUMBER_ROOM, TICK_ROOM = 64, 60  # about how far numbers are from one another on the first and on the second axis
MINUS, ABOUT = "\u2212", "\u2248"
DIGITS = 4  # of rounded payoffs

# How wide signs are, in DejaVu Sans, of which a picture asks: hundredths of the size.
WIDTHS = {32: "'ijl", 34: " ,./:;|\\IJf", 42: "-()[]t!r", 53: '"*_`szc?', 61: "LFkPTYvxyao", 64: "e0123456789ESbdghnpqu${}"}
WIDTHS.update({73: "KAVBRXZCU", 84: "HNDGOQ&w#+<=>^~" + MINUS + ABOUT + "\u00d7", 100: "MWm%@\u2026"})
WIDTH = {sign: hundredths / 100 for hundredths, signs in WIDTHS.items() for sign in signs}
BOLD = 1.14  # how much wider bold letters are


def width_of(text, size):
    """About how wide a text is, never much too narrow."""
    return size * sum(WIDTH.get(sign, 1.05 if east_asian_width(sign) in "WF" else 0.75) for sign in text)


def fitted(text, size, room):
    """The text, or as much of it as fits, with an ellipsis."""
    if width_of(text, size) <= room:
        return text
    length = len(text)
    while length > 1 and width_of(text[:length] + "\u2026", size) > room:
        length -= 1
    return text[:length].rstrip() + "\u2026"


def tick_text(value):
    """A round number as a decimal, which is exact."""
    places = 0
    while (value * 10**places).denominator > 1:
        places += 1
    digits = str(abs(int(value * 10**places))).rjust(places + 1, "0")
    whole, part = (digits[:-places], "." + digits[-places:]) if places else (digits, "")
    return (MINUS if value < 0 else "") + whole + part


def rounded(value):
    """A payoff with about four digits, and a sign before it where it isn't exact."""
    places = DIGITS - len(str(int(abs(value))))
    while value and abs(value) < 1 and abs(value) * 10 ** (places + 1 - DIGITS) < 1:
        places += 1
    near = round(value, max(places, 0))
    return ("" if near == value else ABOUT) + tick_text(near)


def exact_text(point):
    return f"({point[0]}, {point[1]})".replace("-", MINUS)


def rounded_text(point):
    return f"({rounded(point[0])}, {rounded(point[1])})"


def _units(spans, stretch):
    """How much a payoff of 1 takes on each axis."""
    if spans[0] == spans[1] == 0:
        return [room / 2 for room in ROOM]
    filling = [room / float(span) if span else None for room, span in zip(ROOM, spans)]
    equal = min(unit for unit in filling if unit is not None)
    if None in filling or not (stretch or min(float(span) for span in spans) * equal < FLATTEST):
        return [equal, equal]
    return filling


class Plane:
    """Where payoffs lie before there is a frame: the least of both players at the origin, the second player's going up."""

    def __init__(self, points, stretch):
        values = [[point[k] for point in points] for k in (0, 1)]
        self.least = [min(of_one) for of_one in values]
        spans = [max(of_one) - least for of_one, least in zip(values, self.least)]
        self.units = _units(spans, stretch)
        self.width, self.height = (float(span) * unit for span, unit in zip(spans, self.units))

    def at(self, point):
        across, up = (float(value - least) * unit for value, least, unit in zip(point, self.least, self.units))
        return across, -up

    def around(self, boxes):
        """The box that has the polygons and these boxes with some room, and is not too small."""
        box = [-AROUND, -self.height - AROUND, self.width + AROUND, AROUND]
        for left, top, right, bottom in boxes:
            box = [min(box[0], left - 8), min(box[1], top - 8), max(box[2], right + 8), max(box[3], bottom + 8)]
        return box


class Axis:
    """Payoffs of one player on a line: from `low` at its start to `high` at its end."""

    def __init__(self, least, unit, before, length):
        self.low, self.high = (least + Fraction(place) / Fraction(unit) for place in (-before, length - before))
        self.unit, self.length = unit, length

    def step(self, most):
        """The least distance of round numbers at which there are about this many, or fewer."""
        rough = (self.high - self.low) / most
        power = Fraction(10) ** (len(str(int(rough))) if rough >= 1 else 0)
        while power > rough:
            power /= 10
        return next(power * k for k in (1, 2, 5, 10) if power * k >= rough)

    def ticks(self, step):
        return [k * step for k in range(ceil(self.low / step), floor(self.high / step) + 1)]

    def step_across(self, size):
        """The least distance at which the numbers fit side by side."""
        for most in range(max(round(self.length / NUMBER_ROOM), 2), 0, -1):
            step = self.step(most)
            widest = max((width_of(tick_text(value), size) for value in self.ticks(step)), default=0) + size
            if widest <= float(step) * self.unit:
                break
        return step


class Frame:
    """Both axes on the picture. It is laid round a box of the plane, and as wide as is asked at least."""

    def __init__(self, plane, box, least_width, tick_size):
        left, top, right, bottom = box
        more = [max(least - length, 0) / 2 for least, length in ((max(least_width, LEAST), right - left), (LEAST, bottom - top))]
        self.plane = plane
        self.start = left - more[0], bottom + more[1]
        self.width, self.height = right - left + 2 * more[0], bottom - top + 2 * more[1]
        self.axes = [
            Axis(plane.least[0], plane.units[0], -self.start[0], self.width),
            Axis(plane.least[1], plane.units[1], self.start[1], self.height),
        ]
        steps = [self.axes[0].step_across(tick_size), self.axes[1].step(max(2, round(self.height * TICK_SIZE / tick_size / TICK_ROOM)))]
        if plane.units[0] == plane.units[1]:
            steps = [max(steps)] * 2
        self.ticks = [axis.ticks(step) for axis, step in zip(self.axes, steps)]
        self.put(0, 0)

    def put(self, left, top):
        """Says where the frame lies on the picture."""
        self.left, self.top = left, top
        self.right, self.bottom = left + self.width, top + self.height

    def moved(self, x, y):
        """A place of the plane, on the picture."""
        return x - self.start[0] + self.left, y - self.start[1] + self.bottom

    def at(self, point):
        return self.moved(*self.plane.at(point))
