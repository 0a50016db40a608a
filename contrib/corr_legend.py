"""What stands below a picture of polygons: the legend, and the table of numbered corners.

Both say how wide they are at least, how high they are where they have some room from left to right, and which elements they consist of.
"""
from textwrap import wrap

from corr_drawing import swatch, text
from corr_layout import exact_text, rounded_text, width_of
from corr_report import NOTIONS

FULL_NAMES = {
    ("efce",): "extensive-form correlated equilibria",
    ("efcce",): "extensive-form coarse correlated equilibria",
    ("nfcce",): "normal-form coarse correlated equilibria",
    ("efce", "efcce"): "extensive-form equilibria, coarse or not",
    ("efcce", "nfcce"): "coarse correlated equilibria of both forms",
    ("efce", "nfcce"): "correlated equilibria, coarse or not",
    ("efce", "efcce", "nfcce"): "correlated equilibria, coarse or not",
}
LETTERS = 70  # in a line of the legend
INDENT, LEAST_ROW = 76, 26  # where the legend's words begin, and how high a row is at least
GAP = 14  # between the columns of a table; twice that between its entries
WIDEST_CELL, LINE = 24, 1.4  # in the table's size: wider payoffs are set smaller; from one line to the next
MANY, WIDEST = 24, 60  # more entries than that stand in two columns, if these aren't wider than that in the table's size


def counted(corners):
    return "one point" if corners == 1 else "a line" if corners == 2 else f"{corners} corners"


class Legend:
    """A row for each polygon, however many notions have it, one for each notion that has none, and what the payoffs of all plans need."""

    def __init__(self, drawn, blocks, payoffs, sizes):
        self.sizes = sizes
        self.rows = []  # the look, which is that of a notion, "feasible", "nash" or None; the number of corners; the lines
        for notion in NOTIONS:
            self._add_polygons([(notions, points) for notions, points in drawn if notions[0] == notion])
            self._add_missing([block for block in blocks if block.notion == notion and block.kind != "found"])
        if payoffs:
            self._add_payoffs(payoffs)

    def _add(self, look, corners, words):
        self.rows.append((look, corners, wrap(words, LETTERS)))

    def _add_polygons(self, found):
        for notions, points in found:
            self._add(notions[0], len(points), f"{_named(notions)}, {counted(len(points))}")

    def _add_missing(self, blocks):
        for block in blocks:
            self._add(None, 0, f"{_named([block.notion])}: {'none exists' if block.kind == 'empty' else 'not answered (toowide)'}")

    def _add_payoffs(self, payoffs):
        count, nash = len(payoffs.hull), len(payoffs.nash)
        self._add("feasible", count, f"feasible payoffs: all lotteries over pairs of plans, {counted(count)}")
        pure = "none exists" if nash == 0 else "payoffs at one point" if nash == 1 else f"payoffs at {nash} points"
        self._add("nash" if nash else None, nash, f"pure Nash equilibria: {pure}")

    def _height(self, row):
        return max(LEAST_ROW, 8 * self.sizes.factor + len(row[2]) * self.sizes.line)

    def width(self):
        return max(INDENT + width_of(words, self.sizes.text) for _, _, lines in self.rows for words in lines)

    def height(self, _):
        return sum(self._height(row) for row in self.rows)

    def parts(self, left, top, _):
        y = top + self.sizes.text
        for row in self.rows:
            look, corners, lines = row
            yield from swatch(look, corners, left, y - 0.32 * self.sizes.text) if look else ()
            starts = [(left + INDENT, y + k * self.sizes.line) for k in range(len(lines))]
            yield from (text("legend", words, *start, self.sizes.text, "start") for words, start in zip(lines, starts))
            y += self._height(row)


def _named(notions):
    """Notions of equal polygons, by their short and their full names."""
    return f"{' = '.join(notion.upper() for notion in notions)}: {FULL_NAMES[tuple(notions)]}"


class Table:
    """Each corner's number with its payoffs, rounded where that differs; its numbers in the report where there are several polygons."""

    def __init__(self, points, drawn, blocks, size):
        self.size = size
        self.heading = "Corners: number, payoffs"
        columns = [[str(k) for k in range(len(points))], [exact_text(point) for point in points]]
        near = [rounded_text(point) for point in points]
        if near != columns[1]:
            columns.append(near)
            self.heading += ", rounded"
        if len(drawn) > 1:
            columns.append([", ".join(_numbers_in(blocks, point)) for point in points])
            self.heading += ", number in the report"
        self.widths = [min(max(width_of(cell, size) for cell in column), WIDEST_CELL * size) for column in columns]
        self.entries = list(zip(*columns))
        self.entry = sum(self.widths) + GAP * (len(columns) - 1)

    def width(self):
        two = 2 * self.entry + 2 * GAP
        entries = two if len(self.entries) > MANY and two <= WIDEST * self.size else self.entry
        return max(entries, width_of(self.heading, self.size))

    def _lines(self, room):
        """How many entries stand below one another, where so much room is from left to right."""
        across = max(1, int((room + 2 * GAP + 0.1) // (self.entry + 2 * GAP)))
        return -(-len(self.entries) // across)

    def height(self, room):
        return (self._lines(room) + 1) * LINE * self.size + 3

    def parts(self, left, top, room):
        y, lines = top + self.size, self._lines(room)
        yield text("table", self.heading, left, y, self.size, "start")
        for k, cells in enumerate(self.entries):
            column, row = divmod(k, lines)
            yield from self._cells(cells, left + column * (self.entry + 2 * GAP), y + (row + 1) * LINE * self.size + 3)

    def _cells(self, cells, x, y):
        yield text("table", cells[0], x + self.widths[0], y, self.size, "end")
        for k, cell in enumerate(cells[1:], 1):
            size = self.size * min(1, self.widths[k] / width_of(cell, self.size))
            yield text("table", cell, x + sum(self.widths[:k]) + GAP * k, y, size, "start")


def _numbers_in(blocks, point):
    return [f"{block.notion.upper()} {k}" for block in blocks for k, corner in enumerate(block.corners) if corner.point == point]
